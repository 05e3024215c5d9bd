//! An unverified program that infers and verifies as `mlsub` does, to be measured beside it; and the texts for both.
use bench_common::arguments;
use std::io::Write as _;
use std::{fs, process, thread};

mod automaton;
mod biunify;
mod book;
mod derivation;
mod flow;
mod generate;
mod infer;
mod names;
mod parse;
mod print;
mod project;
mod simplify;
mod slow;
mod subsume;
#[cfg(test)]
mod tests;
mod texts;
mod types;
mod verify;

use project::{Said, Ways};

/// What is said of a module of this name with this text and no other file, and the status.
fn answer(name: &str, text: &[u8], simplifies: bool) -> (String, i32) {
    let own = format!("{name}.ml");
    let ways = Ways { simplifies, is_slow: false };
    let Said(said, status) = project::answer(&|file| (file == own).then(|| text.to_vec()), "infer", name, ways);
    (said, status)
}

/// Writes one line at a time, as the program under test does.
fn tell(said: &str, status: i32) -> i32 {
    let mut output = std::io::stdout().lock();
    for line in said.split_inclusive('\n') {
        if output.write_all(line.as_bytes()).and_then(|()| output.flush()).is_err() {
            return 6;
        }
    }
    status
}

/// Answers a command over the files of the current directory. Types are read by recursion.
fn answer_files(command: &str, name: &str, ways: Ways) -> i32 {
    let words = (command.to_string(), name.to_string());
    let reader = thread::Builder::new()
        .stack_size(1 << 32)
        .spawn(move || project::answer(&|file| fs::read(file).ok(), &words.0, &words.1, ways));
    match reader.ok().and_then(|reader| reader.join().ok()) {
        Some(Said(said, status)) => tell(&said, status),
        None => 101,
    }
}

fn compare_files(first: &str, second: &str) -> i32 {
    let (Ok(first), Ok(second)) = (fs::read(first), fs::read(second)) else {
        return tell("not found\n", 4);
    };
    // types are read by recursion
    let reader = thread::Builder::new().stack_size(1 << 30).spawn(move || types::compare(&first, &second));
    match reader.ok().and_then(|reader| reader.join().ok()).flatten() {
        Some((said, all)) => tell(&said, i32::from(!all)),
        None => tell("not a signature\n", 3),
    }
}

/// Infers a generated module, and says how long it and its signature are.
fn generate_and_infer(seed: u32, count: usize, simplifies: bool) -> i32 {
    let text = generate::generate(seed, count);
    match answer("generated", text.as_bytes(), simplifies) {
        (said, 0) => {
            tell(&format!("generate: {count} bindings, {} bytes in, {} bytes out\n", text.len(), said.len()), 0)
        }
        (said, status) => tell(&said, status),
    }
}

const USAGE: &str = "usage: infer-bench infer [--simplify] NAME | check [--simplify] [--slow] NAME | verify NAME
    | generate [--simplify] SEED COUNT | module SEED COUNT | compare FILE FILE | write FOLDER\n";

fn main() {
    let mut words = arguments();
    let simplifies = words.iter().any(|word| word == "--simplify");
    let is_slow = words.iter().any(|word| word == "--slow");
    words.retain(|word| word != "--simplify" && word != "--slow");
    let numbers = |seed: &str, count: &str| Some((seed.parse().ok()?, count.parse().ok()?));
    let status = match words.iter().map(String::as_str).collect::<Vec<_>>()[..] {
        [command @ ("infer" | "check" | "verify"), name] => answer_files(command, name, Ways { simplifies, is_slow }),
        ["compare", first, second] => compare_files(first, second),
        ["write", folder] => texts::write_texts(folder).map_or(1, |()| 0),
        ["generate", seed, count] => match numbers(seed, count) {
            Some((seed, count)) => generate_and_infer(seed, count, simplifies),
            None => tell(USAGE, 8),
        },
        ["module", seed, count] => match numbers(seed, count) {
            Some((seed, count)) => tell(&generate::generate(seed, count), 0),
            None => tell(USAGE, 8),
        },
        _ => tell(USAGE, 8),
    };
    process::exit(status);
}
