//! The proved functions against the same method in plain Rust, on the same inputs in one process. At the repository's root:
//! `.ci/staticlib && cargo run --release --offline --manifest-path bench/Cargo.toml`

mod jobs;
mod measure;
mod plain;
mod rounding;
mod solver;
mod tables;

fn main() {
    rounding::measure();
    let solver = solver::measure();
    let tables = tables::measure();
    let jobs = jobs::measure();
    println!("bars: the ratio, and what it is to be at most");
    // 'Per sweep' can be read as a run by its sweeps or as what a sweep adds: both are held to the bar.
    for (what, ratios) in [
        ("whole runs", &solver.whole),
        ("a further sweep", &solver.further),
    ] {
        bar(&format!("solver, {what}, n = 2"), of(ratios, 2), 4.0);
        bar(&format!("solver, {what}, n = 8"), of(ratios, 8), 1.0);
    }
    // The table of 2 channels has no bar: its ratio is printed above.
    for ((n, k), ratio) in tables.into_iter().filter(|((n, _), _)| *n != 2) {
        bar(&format!("table, {k} samples of n = {n}"), ratio, 1.5);
    }
    for ((n, k), ratio) in jobs {
        let most = if (n, k) == (2, 2) { 2.0 } else { 1.5 };
        bar(&format!("whole job, {k} samples of n = {n}"), ratio, most);
    }
}

fn of<Key: PartialEq>(ratios: &[(Key, f64)], key: Key) -> f64 {
    let (_, ratio) = ratios
        .iter()
        .find(|(other, _)| *other == key)
        .expect("a measured one");
    *ratio
}

fn bar(what: &str, ratio: f64, most: f64) {
    let verdict = if ratio <= most { "met" } else { "missed" };
    println!("{what}: {ratio:.2}, {most}: {verdict}");
}
