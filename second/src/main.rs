//! The command line of the second program.

use second::benchsets::bench_sets;
use second::cases::random_case;
use second::fixed::fixed;
use second::frames::{answer_line, lines, show, write_frame};
use second::listing::listing;
use second::random::Random;
use second::selfcheck::selfcheck;
use second::spelling::{spell, unspell};
use std::io::{Read, Write};
use std::process::ExitCode;

/// What the program says when it is called wrongly.
const USAGE: &str = "usage:
  second selfcheck SEED COUNT      rounds, operator and prover on COUNT random rule sets
  second cases fixed               the fixed cases, framed
  second cases SEED COUNT          the fixed cases and COUNT random ones, framed
  second cases random SEED COUNT   COUNT random cases alone, framed
  second names                     the names of the fixed cases, one a line
  second answers                   frames on standard input, the expected lines
  second show                      frames on standard input, a readable line each
  second listing                   rule records on standard input, what the listing program prints
  second spell                     a readable text on standard input, rule records
  second unspell                   rule records on standard input, a readable text
  second bench-sets DIR            the benchmark's rule sets, a file each";

/// Reads standard input to its end.
fn input() -> Result<Vec<u8>, String> {
    let mut bytes = Vec::new();
    let read = std::io::stdin().lock().read_to_end(&mut bytes);
    read.map_err(|fault| format!("standard input: {fault}"))?;
    Ok(bytes)
}

/// Reads a number of the command line.
fn number(word: &str) -> Result<u64, String> {
    word.parse().map_err(|_| format!("{word} is no number"))
}

/// Gives the frames of the fixed cases.
fn fixed_frames() -> Vec<u8> {
    fixed().iter().flat_map(|(_, case)| write_frame(case)).collect()
}

/// Gives the frames of random cases.
fn random_frames(seed: &str, count: &str) -> Result<Vec<u8>, String> {
    let mut random = Random::new(number(seed)?);
    let mut frames = Vec::new();
    for _ in 0..number(count)? {
        frames.extend(write_frame(&random_case(&mut random)));
    }
    Ok(frames)
}

/// Gives the names of the fixed cases with their numbers from 1.
fn names() -> String {
    fixed().iter().zip(1..).map(|((name, _), place)| format!("{place} {name}\n")).collect()
}

/// Writes the benchmark's rule sets into a folder.
fn write_bench_sets(folder: &str) -> Result<Vec<u8>, String> {
    let mut told = String::new();
    for (name, rules) in bench_sets() {
        let file = std::path::Path::new(folder).join(name).with_extension("rules");
        std::fs::write(&file, &rules).map_err(|fault| format!("{}: {fault}", file.display()))?;
        told += &format!("{name}.rules {} bytes\n", rules.len());
    }
    Ok(told.into())
}

/// Does what the command line asks and gives what is to be written.
fn run(words: &[&str]) -> Result<Vec<u8>, String> {
    match words {
        ["selfcheck", seed, count] => {
            let tally = selfcheck(number(seed)?, number(count)?)?;
            Ok((tally.say() + "\n").into())
        }
        ["cases", "fixed"] => Ok(fixed_frames()),
        ["cases", "random", seed, count] => random_frames(seed, count),
        ["cases", seed, count] => Ok([fixed_frames(), random_frames(seed, count)?].concat()),
        ["names"] => Ok(names().into()),
        ["bench-sets", folder] => write_bench_sets(folder),
        ["answers"] => Ok(lines(&input()?, answer_line).into()),
        ["show"] => Ok(lines(&input()?, show).into()),
        ["listing"] => Ok(listing(&input()?).into()),
        ["spell"] => {
            let text = String::from_utf8(input()?).map_err(|_| "the text is not UTF-8")?;
            spell(&text)
        }
        ["unspell"] => unspell(&input()?).map(String::into_bytes),
        _ => Err(USAGE.into()),
    }
}

/// Runs the program: exit status 0, or 1 with what is wrong on standard error.
fn main() -> ExitCode {
    let words: Vec<String> = std::env::args().skip(1).collect();
    let words: Vec<&str> = words.iter().map(String::as_str).collect();
    let written = run(&words)
        .and_then(|bytes| std::io::stdout().lock().write_all(&bytes).map_err(|fault| fault.to_string()));
    match written {
        Ok(()) => ExitCode::SUCCESS,
        Err(what) => {
            eprintln!("{what}");
            ExitCode::FAILURE
        }
    }
}
