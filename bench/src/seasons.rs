//! A season of 10,000 jobs of 2 to 256 samples: through the static library, in plain Rust, by the reference's loop, and through the program `season`,
//! where it is built.

use crate::measure::Sequence;
use crate::plain;
use std::hint::black_box;
use std::path::Path;
use std::process::Command;
use std::time::Instant;
use std::{fs, io};

const JOBS: usize = 10_000;

/// Each is timed so often, in turn, and the least time counts; the reference, which is slow, once.
const ROUNDS: usize = 3;

struct Season {
    texts: Vec<u8>,
    ends: Vec<usize>,
}

impl Season {
    /// Jobs of 2 to 8 channels, limit 16 and tolerance 0; every eighth is refused at its last line.
    fn new() -> Season {
        let mut sequence = Sequence(0x5ea5);
        let mut below = |most: u64| sequence.next() % most;
        let mut season = Season {
            texts: Vec::new(),
            ends: Vec::new(),
        };
        for job in 0..JOBS {
            let (n, k) = (below(7) + 2, below(255) + 2);
            let mut text = format!("P\t{n}\t16\t0\n");
            for _ in 0..k {
                text += &format!("S\t{}", below(100) + 1);
                for _ in 0..n {
                    text += &format!("\t{}", below(65_536));
                }
                text += "\n";
            }
            text += &format!("E\t{}\n", k + u64::from(job % 8 == 7));
            season.texts.extend(text.bytes());
            season.ends.push(season.texts.len());
        }
        season
    }

    fn parts(&self) -> impl Iterator<Item = &[u8]> {
        let starts = std::iter::once(&0).chain(&self.ends);
        starts
            .zip(&self.ends)
            .map(|(&start, &end)| &self.texts[start..end])
    }
}

/// The line that a piece of work gives, and its least time in seconds.
fn timed(rounds: usize, mut work: impl FnMut() -> Vec<u8>) -> (Vec<u8>, f64) {
    let mut least = f64::INFINITY;
    let mut line = Vec::new();
    for _ in 0..rounds {
        let start = Instant::now();
        line = black_box(work());
        least = start.elapsed().as_secs_f64().min(least);
    }
    (line, least)
}

fn proved(season: &Season) -> Vec<u8> {
    let mut out = [0; field_axes::MOST_SEASON_BYTES];
    let length = field_axes::season_into(black_box(&season.texts), &season.ends, &mut out);
    out[..length.expect("good ends")].to_vec()
}

fn in_plain_rust(season: &Season) -> Vec<u8> {
    let mut out = [0; field_axes::MOST_SEASON_BYTES];
    let length = plain::job::season(black_box(&season.texts), &season.ends, &mut out);
    out[..length].to_vec()
}

fn by_reference(season: &Season) -> Vec<u8> {
    let line = reference::season::of_buffer(black_box(&season.texts), &season.ends);
    line.expect("good ends").into_bytes()
}

/// The program on a file for each job, in a folder of its own; writing them is not timed. None where it is not built.
fn by_program(season: &Season) -> io::Result<Option<(Vec<u8>, f64)>> {
    let program = Path::new(env!("CARGO_MANIFEST_DIR")).join("../target/bin/season");
    if !program.exists() {
        return Ok(None);
    }
    let program = program.canonicalize()?;
    let folder = std::env::temp_dir().join(format!("season-{}", std::process::id()));
    fs::create_dir(&folder)?;
    let names: Vec<String> = (1..=JOBS).map(|job| job.to_string()).collect();
    let written = names
        .iter()
        .zip(season.parts())
        .try_for_each(|(name, text)| fs::write(folder.join(name), text));
    let mut run = || {
        let output = Command::new(&program)
            .current_dir(&folder)
            .args(&names)
            .output();
        output.map_or_else(|_| Vec::new(), |output| output.stdout)
    };
    let result = written.map(|()| Some(timed(ROUNDS, &mut run)));
    fs::remove_dir_all(&folder)?;
    result
}

/// Prints the figures.
pub fn measure() {
    let season = Season::new();
    let (line, library) = timed(ROUNDS, || proved(&season));
    println!("a season of {JOBS} jobs of 2 to 256 samples of 2 to 8 channels, an eighth of them refused: seconds, jobs a second,");
    println!("and the static library to it");
    let row = |what: &str, other: &[u8], time: f64| {
        assert_eq!(line, other, "{what}");
        let each = JOBS as f64 / time;
        println!("{what}: {time:.3} {each:.0} {:.3}", library / time);
    };
    row("static library", &line, library);
    let (other, time) = timed(ROUNDS, || in_plain_rust(&season));
    row("plain Rust", &other, time);
    let (other, time) = timed(1, || by_reference(&season));
    row("reference", &other, time);
    match by_program(&season) {
        Ok(Some((other, time))) => row("program season, files included", &other, time),
        Ok(None) => println!("program season: not built"),
        Err(error) => println!("program season: {error}"),
    }
}
