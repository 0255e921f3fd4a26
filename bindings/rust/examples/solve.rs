//! Three samples of two channels: their table and its axes, then their job text and its report, samples that are no job, and a job that is
//! refused; then some calls, and a load of strong samples; last, all panels of size 1, the first and the last of them, and one that is none.
//! It prints what solve.out has. At the repository's root:
//! `.ci/staticlib && cargo run --release --offline --manifest-path bindings/rust/Cargo.toml --example solve`

use field_axes::{
    calls, job, panel, panel_position, panels, report, solve, table, JobRefused, Refused,
};

fn main() {
    let (dilutions, counts) = ([1, 5, 1], [0, 0, 1, 0, 5, 5]);
    if let Err(Refused(number)) = show(2, &dilutions, &counts) {
        println!("refused {number}");
    }
    for counts in [&counts[..], &counts[..5]] {
        match job(2, 1, 0, &dilutions, counts) {
            Ok(text) => {
                print!("{text}");
                show_report(&text);
            }
            Err(Refused(number)) => println!("refused {number}"),
        }
    }
    show_report("P\t2\t1\t0\nS\t101\t0\t0\n");
    print!(
        "{}",
        calls(b"L\t1\t2\t50\t25\t25\t50\nT\t2\t1\t2\nA\t3\t1\n")
    );
    let strong = b"M\t4\t2\t2\t100\t100\t65535\t65535\t0\t0\nA\t1\t1\n";
    print!("{}", calls(strong));
    if let Err(Refused(number)) = show_panels() {
        println!("refused {number}");
    }
}

fn show_panels() -> Result<(), Refused> {
    print!("{}", panels(1)?);
    for position in [1, 27] {
        let [a11, a12, a22] = panel(1, position)?;
        let again = panel_position(1, [a11, a12, a22])?;
        println!("panel {again}: {a11} {a12} {a22}");
    }
    panel_position(1, [0, 2, 0])?;
    Ok(())
}

fn show_report(job: &str) {
    match report(job.as_bytes()) {
        Ok(text) => print!("{text}"),
        Err(JobRefused { number, line }) => println!("refused {number} at line {line}"),
    }
}

fn show(n: usize, dilutions: &[u32], counts: &[u32]) -> Result<(), Refused> {
    let table = table(n, dilutions, counts)?;
    println!("sums {:?}, shift {}", table.sums, table.e);
    let solution = solve(n, &table.entries, 1, 0)?;
    println!(
        "{:?} after {} sweeps and {} turns",
        solution.outcome, solution.sweeps, solution.turns
    );
    for (number, axis) in (1..).zip(&solution.axes) {
        println!(
            "axis {number}: {} within {}, in 1/1024; row {:?}, in 1/2^30",
            axis.entry, axis.error, axis.row
        );
    }
    Ok(())
}
