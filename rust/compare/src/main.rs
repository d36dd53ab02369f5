//! Compares the port with the original. `compare calls COUNT [SEED]` asks both the same questions; `compare writes COUNT [SEED]` lets the
//! original read what the port writes; `compare copies COUNT [SEED]` lets it decode the streams that the port makes of streams; `compare differences` shows the listed differences. Status 1 if anything differs that is not listed, or a listed difference is not there.
mod copies;
mod differences;
mod making;
mod round;
mod sides;
mod writes;

use std::process::ExitCode;

const SEED: u64 = 0x0fad_ed0f_f1ce_5eed;

fn calls(count: u64, seed: u64) -> ExitCode {
    let mut round = round::Round::new(seed);
    let done = round.run(count);
    round.tally.print();
    match &done {
        Ok(()) => println!("compared: {} calls, seed {seed}, none differs", round.tally.calls),
        Err(what) => println!("compared: call {} of seed {seed} differs: {what}", round.tally.calls),
    }
    if done.is_ok() { ExitCode::SUCCESS } else { ExitCode::FAILURE }
}

fn writes(count: u64, seed: u64) -> ExitCode {
    match writes::run(count, seed) {
        Ok(()) => println!(
            "written and read by the original: {count} sets, lossless and lossy by turns, seed {seed}, none differs or is off by more than its base"
        ),
        Err(what) => {
            println!("written and read by the original, seed {seed}: {what}");
            return ExitCode::FAILURE;
        }
    }
    ExitCode::SUCCESS
}

fn copies(count: u64, seed: u64) -> ExitCode {
    match copies::run(count, seed) {
        Ok(t) => println!(
            "made and decoded by the original: {} streams, tight and lossy, seed {seed}, none differs or is off by more than its base; {} refused by both with 14; {} do not open",
            t.made, t.refused, t.not_opened
        ),
        Err(what) => {
            println!("made and decoded by the original, seed {seed}: {what}");
            return ExitCode::FAILURE;
        }
    }
    ExitCode::SUCCESS
}

fn differences() -> ExitCode {
    let mut wrong = 0;
    for test in differences::all() {
        match test() {
            Ok(said) => println!("{said}"),
            Err(said) => {
                wrong += 1;
                println!("NOT AS LISTED: {said}");
            }
        }
    }
    if wrong == 0 { ExitCode::SUCCESS } else { ExitCode::FAILURE }
}

fn main() -> ExitCode {
    // A panic of the original is an answer, and is not to be printed.
    std::panic::set_hook(Box::new(|info| {
        let inside = info.location().is_some_and(|l| l.file().contains("flashraw-"));
        if !inside {
            eprintln!("{info}");
        }
    }));
    let words: Vec<String> = std::env::args().skip(1).collect();
    let number = |i: usize, otherwise: u64| words.get(i).map_or(Some(otherwise), |w| w.parse().ok().filter(|n| *n > 0));
    match (words.first().map(String::as_str), number(1, 2000), number(2, SEED)) {
        (Some("calls"), Some(count), Some(seed)) => calls(count, seed),
        (Some("writes"), Some(count), Some(seed)) => writes(count, seed),
        (Some("copies"), Some(count), Some(seed)) => copies(count, seed),
        (Some("differences"), ..) if words.len() == 1 => differences(),
        _ => {
            eprintln!(
                "usage: compare calls COUNT [SEED]\n       compare writes COUNT [SEED]\n       compare copies COUNT [SEED]\n       compare differences"
            );
            ExitCode::from(2)
        }
    }
}
