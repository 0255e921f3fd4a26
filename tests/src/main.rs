//! The static library through its bindings: their declarations against its own, then its functions against the reference on seeded random
//! inputs, number for number and byte for byte. At the repository's root:
//! `.ci/staticlib && cargo run --release --offline --manifest-path tests/Cargo.toml`

mod calling;
mod declarations;
mod listing;
mod pooling;
mod random;
mod reporting;
mod samples;
mod seasons;
mod solving;
mod tabulating;
mod writing;

use std::process::ExitCode;

/// Cases of each kind. A run of another SEED is `.. -- SEED`.
const CASES: u64 = 20_000;
const SEED: u64 = 1;

fn main() -> ExitCode {
    let seed = std::env::args()
        .nth(1)
        .map_or(SEED, |word| word.parse().expect("a seed is a number"));
    let mut failed = false;
    match declarations::compare() {
        Ok(count) => println!("declarations: {count} functions, the same in both bindings"),
        Err(difference) => {
            println!("declarations: {difference}");
            failed = true;
        }
    }
    if let Err(difference) = writing::longest() {
        println!("job: {difference}");
        failed = true;
    }
    let kinds: [(&str, fn(u64) -> Result<String, String>); 8] = [
        ("report", reporting::case),
        ("calls", calling::case),
        ("solve", solving::case),
        ("table", tabulating::case),
        ("job", writing::case),
        ("panels", listing::case),
        ("pool", pooling::case),
        ("season", seasons::case),
    ];
    for (name, case) in kinds {
        let mut counts = std::collections::BTreeMap::new();
        for number in 0..CASES {
            match case(seed.wrapping_mul(1 << 32) + number) {
                Ok(kind) => *counts.entry(kind).or_insert(0u64) += 1,
                Err(difference) => {
                    println!("{name}, seed {seed}, case {number}: {difference}");
                    failed = true;
                    break;
                }
            }
        }
        println!("{name}: {:?}", counts);
    }
    if failed {
        return ExitCode::FAILURE;
    }
    println!("no difference");
    ExitCode::SUCCESS
}
