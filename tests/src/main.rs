//! Compares the proved receiver, `speaker` and `listener` with a twin that was written from the documents alone.

mod inputs;
mod library;
mod parts;
mod plant;
mod programs;
mod random;
mod receiver;
mod report;
mod scripts;
mod sender;
mod sha256;
mod wire;

use parts::{Context, PARTS, Part};
use plant::{PLANTS, Plant};
use random::Random;
use report::{Counts, Difference};
use std::process::ExitCode;
use std::time::Instant;

const USAGE: &str = "usage: compare SEED SIZE            compare all, SIZE times 100 receivers and so on
       compare SEED SIZE PART [RUN] compare one part, or one run of it
       compare SEED SIZE plants [NAME]  plant each difference, or one, in the twin: it must be found";

const CHAIN: u64 = 20_000;

/// Runs of one part, up to the first difference.
fn runs(
    c: &Context,
    seed: u64,
    part: usize,
    which: std::ops::Range<u64>,
    counts: &mut Counts,
) -> Result<(), (u64, Difference)> {
    let (_, _, one): (&str, u64, Part) = PARTS[part];
    for run in which {
        counts.runs += 1;
        one(c, Random::of(seed, part as u64, run), counts).map_err(|d| (run, d))?;
    }
    Ok(())
}

fn tell(seed: u64, size: u64, part: &str, run: u64, d: &Difference) {
    println!("DIFFERS: {part}, run {run}: {}", d.what);
    let file = "target/tests/differs.input";
    let kept = std::fs::write(file, &d.input).is_ok();
    println!("  again: compare {seed} {size} {part} {run}");
    if kept {
        println!(
            "  its input so far, {} bytes, is {file}: target/bin/{} < {file}",
            d.input.len(),
            d.program
        );
    }
}

fn plants(c: &mut Context, seed: u64, size: u64, only: Option<&str>) -> bool {
    let (mut found, mut missed) = (0, 0);
    for (part, plant, what) in PLANTS {
        let name = format!("{plant:?}");
        if only.is_some_and(|o| o != name) {
            continue;
        }
        c.plant = *plant;
        let k = PARTS.iter().position(|p| p.0 == *part).expect("a part");
        let mut counts = Counts::default();
        match runs(c, seed, k, 0..size * PARTS[k].1, &mut counts) {
            Err((run, d)) => {
                // It must be the plant that differs.
                c.plant = Plant::None;
                if let Err((run, d)) = runs(c, seed, k, run..run + 1, &mut Counts::default()) {
                    tell(seed, size, part, run, &d);
                    return false;
                }
                found += 1;
                println!("found: {part} {name} ({what}), at run {run}, input {}", counts.inputs);
                if only.is_some() {
                    println!("{}", d.what);
                }
            }
            Ok(()) => {
                missed += 1;
                println!("NOT FOUND: {part} {name} ({what}), {} inputs", counts.inputs);
            }
        }
    }
    println!("plants: {found} found, {missed} not found");
    missed == 0 && found > 0
}

fn compare(args: &[String]) -> Option<bool> {
    let (seed, size) = (args.first()?.parse().ok()?, args.get(1)?.parse::<u64>().ok()?);
    if let Err(which) = sha256::self_test() {
        println!("the twin's own {which} is not as published");
        return Some(false);
    }
    println!("seed {seed}, size {size}");
    let drawn = Random::of(seed, 99, 0).key();
    let bin = std::env::var("TESLA_BIN").unwrap_or("target/bin".into());
    let mut c = Context {
        chain: sender::chain(CHAIN, drawn),
        bin,
        plant: Plant::None,
    };
    let only = args.get(2).map(String::as_str);
    if only == Some("plants") {
        return Some(plants(&mut c, seed, size, args.get(3).map(String::as_str)));
    }
    if only.is_some_and(|o| PARTS.iter().all(|p| p.0 != o)) {
        return None;
    }
    let run = match args.get(3) {
        Some(word) => Some(word.parse::<u64>().ok()?),
        None => None,
    };
    let (mut inputs, start) = (0, Instant::now());
    for (k, (part, at_one, _)) in PARTS.iter().enumerate() {
        if only.is_some_and(|o| o != *part) {
            continue;
        }
        let (mut counts, began) = (Counts::default(), Instant::now());
        let which = run.map_or(0..size * at_one, |run| run..run + 1);
        if let Err((run, d)) = runs(&c, seed, k, which, &mut counts) {
            tell(seed, size, part, run, &d);
            return Some(false);
        }
        counts.print(part, began.elapsed().as_secs_f64());
        inputs += counts.inputs;
        let missing = counts.missing(part);
        if run.is_none() && size >= 20 && !missing.is_empty() {
            println!("never met, so that nothing was compared of it: {}", missing.join(", "));
            return Some(false);
        }
    }
    println!(
        "{inputs} inputs, {:.1} s: nothing differs",
        start.elapsed().as_secs_f64()
    );
    Some(true)
}

fn main() -> ExitCode {
    let args: Vec<String> = std::env::args().skip(1).collect();
    match compare(&args) {
        Some(true) => ExitCode::SUCCESS,
        Some(false) => ExitCode::from(1),
        None => {
            eprintln!("{USAGE}");
            ExitCode::from(2)
        }
    }
}
