//! A reference checker with a generator of model files: see `USAGE`.

mod analyse;
mod files;
mod generate;
mod graph;
mod model;
mod print;
mod random;
mod read;
mod record;
mod rules;
mod tally;

#[cfg(test)]
mod cases;

use std::env;
use std::io::{self, Write};
use std::path::Path;
use std::process::ExitCode;

const USAGE: &str = "\
usage: reference print [MODEL]            print the result of a model (or of standard input)
       reference expect FILE...           print what the replay program has to print
       reference generate COUNT SEED DIR  write COUNT model files, good and bad, into DIR
       reference cuts DIR MODEL...        write every cut of each readable model into DIR
       reference tally < TEXT             count the files of an expected text by verdict";

const BAD_USAGE: u8 = 64;
const BAD_FILE: u8 = 74;

fn main() -> ExitCode {
    let words: Vec<String> = env::args().skip(1).collect();
    let words: Vec<&str> = words.iter().map(String::as_str).collect();
    match answer(&words) {
        Some(Ok(text)) => put_out(&text),
        Some(Err(error)) => {
            eprintln!("reference: {error}");
            ExitCode::from(BAD_FILE)
        }
        None => {
            eprintln!("{USAGE}");
            ExitCode::from(BAD_USAGE)
        }
    }
}

/// The text that a command prints; none if there is no such command.
fn answer(words: &[&str]) -> Option<io::Result<String>> {
    match *words {
        ["print"] => Some(files::read_start(io::stdin()).map(print)),
        ["print", model] => Some(files::open(model).map(print)),
        ["expect", ref names @ ..] if !names.is_empty() => Some(Ok(files::expect(names))),
        ["generate", count, seed, dir] => {
            let (count, seed) = (count.parse().ok()?, seed.parse().ok()?);
            Some(generate::write_files(count, seed, Path::new(dir)).map(|()| String::new()))
        }
        ["cuts", dir, ref models @ ..] if !models.is_empty() => {
            Some(files::write_cuts(Path::new(dir), models).map(|count| format!("{count}\n")))
        }
        ["tally"] => Some(io::read_to_string(io::stdin()).map(|text| tally::tally(&text))),
        _ => None,
    }
}

fn print(bytes: Vec<u8>) -> String {
    print::printed(&print::verdict(&bytes))
}

fn put_out(text: &str) -> ExitCode {
    match io::stdout().lock().write_all(text.as_bytes()) {
        Ok(()) => ExitCode::SUCCESS,
        Err(_) => ExitCode::from(BAD_FILE),
    }
}
