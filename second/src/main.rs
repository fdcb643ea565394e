//! The program `second`: one subcommand for each thing it can do.

use std::io::{self, Read, Write};
use std::process::ExitCode;

use second::{counts, edges, fields, random, text};

const USAGE: &str = "usage: second run < capture
       second capture < text > capture
       second random SEED COUNT > capture
       second random-cut SEED > capture
       second edges
       second edges-calls > calls
       second edges-random SEED COUNT
       second edges-random-calls SEED COUNT > calls
       second tally [CALLS] < lines
";

fn main() -> ExitCode {
    let words: Vec<String> = std::env::args().skip(1).collect();
    let words: Vec<&str> = words.iter().map(String::as_str).collect();
    let done = match words[..] {
        ["run"] => input().and_then(|capture| output(fields::run(&capture).as_bytes())),
        ["capture"] => input_text()
            .and_then(|text| text::capture_of(&text))
            .and_then(|capture| output(&capture)),
        [name @ ("random" | "edges-random" | "edges-random-calls"), seed, count] => {
            match (seed.parse(), count.parse()) {
                (Ok(seed), Ok(count)) => output(&made_of_seed(name, seed, count)),
                _ => return usage(),
            }
        }
        ["random-cut", seed] => match seed.parse() {
            Ok(seed) => output(&random::cut_capture(seed)),
            Err(_) => return usage(),
        },
        ["edges"] => output(edges::lines().as_bytes()),
        ["edges-calls"] => output(&edges::calls_as_fields()),
        ["tally"] => input_text()
            .and_then(|lines| counts::counts(&lines))
            .and_then(|counts| output(counts.as_bytes())),
        ["tally", calls] => file(calls)
            .and_then(|calls| counts::counts_of_calls(&calls, &input_text()?))
            .and_then(|counts| output(counts.as_bytes())),
        _ => return usage(),
    };
    match done {
        Ok(()) => ExitCode::SUCCESS,
        Err(what) => {
            eprintln!("second: {what}");
            ExitCode::from(1)
        }
    }
}

/// What the subcommands make that take a seed and a count.
fn made_of_seed(name: &str, seed: u64, count: usize) -> Vec<u8> {
    match name {
        "random" => random::capture(seed, count),
        "edges-random" => edges::random::lines(seed, count).into_bytes(),
        _ => edges::random::calls_as_fields(seed, count),
    }
}

fn usage() -> ExitCode {
    eprint!("{USAGE}");
    ExitCode::from(2)
}

fn input() -> Result<Vec<u8>, String> {
    let mut octets = Vec::new();
    match io::stdin().lock().read_to_end(&mut octets) {
        Ok(_) => Ok(octets),
        Err(why) => Err(format!("standard input: {why}")),
    }
}

fn file(name: &str) -> Result<Vec<u8>, String> {
    std::fs::read(name).map_err(|why| format!("{name}: {why}"))
}

fn input_text() -> Result<String, String> {
    String::from_utf8(input()?).map_err(|_| "standard input is not text".into())
}

fn output(octets: &[u8]) -> Result<(), String> {
    let mut out = io::stdout().lock();
    out.write_all(octets)
        .and_then(|()| out.flush())
        .map_err(|why| format!("standard output: {why}"))
}
