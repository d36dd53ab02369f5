//! Shows, checks, decodes, tightens, copies, compares and measures Fuji compressed raw streams, by themselves or in
//! camera files. The texts of --help say what each command does, and what each status means.
mod arguments;
mod blocks;
mod calls;
mod check;
mod codes;
mod compare;
mod decode;
mod draft;
mod files;
mod header_rules;
mod help;
mod info;
mod inputs;
mod json;
mod lamp;
mod make;
mod manual;
mod memory;
mod output;
mod picture;
mod png;
mod pool;
mod progress;
mod raf;
mod read_back;
mod size;
mod source;
mod states;
mod svg;
mod tile;
mod time;
mod wording;
mod words;

use calls::{Call, Json};
use inputs::Input;
use source::Source;
use std::io::Write;
use std::path::PathBuf;
use std::process::ExitCode;

const VERSION: &str = env!("CARGO_PKG_VERSION");

fn main() -> ExitCode {
    memory::give_back();
    let words = std::env::args_os().skip(1).collect();
    match arguments::read(words) {
        Ok(call) => answer(call),
        Err(wrong) => {
            let about = wrong.command.as_deref().unwrap_or_default();
            let more = if about.is_empty() { "fujiraw --help".to_string() } else { format!("fujiraw {about} --help") };
            complain(&format!("fujiraw: {}\n{}\nSee {more}", wrong.text, help::usage(about)));
            ExitCode::from(2)
        }
    }
}

fn answer(call: Call) -> ExitCode {
    match call {
        Call::Help(text) => status(files::print(text)),
        Call::Version => status(files::print(&format!("fujiraw {VERSION}\n"))),
        Call::Manual => status(files::print(&manual::page(VERSION))),
        Call::Info(files, blocks, json) => info(&files, blocks.0, json),
        Call::Check(call) => ended(check::check(&call)),
        Call::Decode(call) => run(&inputs::all(&call.files, Some(&call.place.out)), call.quiet.0, |input| decode::decode(&call, input)),
        Call::Make(call) => run(&inputs::all(&call.files, Some(&call.place.out)), call.quiet.0, |input| make::make(&call, input)),
        Call::Compare(call) => ended(compare::compare(&call)),
        Call::Lamp(call) => ended(lamp::lamp(&call)),
        Call::Size(call) => ended(size::size(&call)),
        Call::Lines(call) => status(blocks::lines(&call)),
        Call::Write(call) => status(blocks::write(&call)),
        Call::Plan(call) => status(blocks::plan(&call)),
        Call::Save(call) => status(states::save(&call)),
        Call::Codes([depth, k, length]) => {
            status(codes::sheet(depth, k, length).map_err(|e| e.to_string()).and_then(|text| files::print(&text)))
        }
    }
}

/// A line on standard error; if that is closed too, nobody is there to be told.
pub fn complain(text: &str) {
    let _ = writeln!(std::io::stderr(), "{text}");
}

fn status(done: Result<(), String>) -> ExitCode {
    ended(done.map(|()| ExitCode::SUCCESS))
}

fn ended(done: Result<ExitCode, String>) -> ExitCode {
    done.unwrap_or_else(|why| {
        complain(&why);
        ExitCode::FAILURE
    })
}

fn info(named: &[PathBuf], read: bool, json: Json) -> ExitCode {
    let all = inputs::all(named, None);
    let opened = |input: &Input| match &input.broken {
        Some(why) => Err(source::Fault::from(why.clone())),
        None => Source::open(&input.path),
    };
    if !json.0 {
        return run(&all, true, |input| files::print(&info::words(&opened(input)?, read)?));
    }
    let mut status = ExitCode::SUCCESS;
    for input in &all {
        let source = opened(input);
        if source.is_err() {
            status = ExitCode::FAILURE;
        }
        if let Err(why) = files::print(&(info::json(&files::name(&input.path), &source, read) + "\n")) {
            return ended(Err(why));
        }
    }
    status
}

/// One file after the other. What is wrong with one does not keep the others from their turn; with several, each line
/// names its file, and the last one counts them.
fn run(all: &[Input], quiet: bool, work: impl Fn(&Input) -> Result<(), String>) -> ExitCode {
    let mut failed = 0;
    for input in all {
        let done = match &input.broken {
            Some(why) => Err(why.clone()),
            None => work(input),
        };
        if let Err(why) = done {
            failed += 1;
            match all.len() {
                1 if input.broken.is_none() => complain(&why),
                _ => complain(&format!("{}: {why}", files::name(&input.path))),
            }
        }
    }
    if all.len() > 1 && (!quiet || failed > 0) {
        let line = format!("{}: {} done, {failed} failed", wording::count(all.len(), "file"), all.len() - failed);
        // Where something failed the count stands with what is said of it.
        if failed > 0 {
            complain(&line);
        } else if let Err(why) = files::print(&(line + "\n")) {
            return ended(Err(why));
        }
    }
    if failed > 0 { ExitCode::FAILURE } else { ExitCode::SUCCESS }
}
