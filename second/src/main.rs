//! The program `second`: logs, audits, new states, and generated cases.

#![deny(warnings)]
#![forbid(unsafe_code)]

use std::fs::File;
use std::io::{self, BufRead, BufReader, BufWriter, Write};
use std::process::ExitCode;

use second::generate::{self, LogOptions};
use second::log::{self, LogError, RunOptions};
use second::{audit, lists, make_words, small, Board, Sizes};

const USAGE: &str = "\
usage:
  second run [--answers-only] [--words] [--words-each] LOG
  second audit [--lines] FILE
  second make T D P [FIRST LENGTH ..]
  second generate SEED log [--sizes T D P [--holes FIRST LENGTH ..]]
                           [--requests N] [--batch N] [--oversize]
  second generate SEED states [--count N] [--damage K]
  second lists
  second small
  second --help
LOG and FILE may be -, which is standard input. FIRST and LENGTH are a hole's
first frame and its length, for up to eight holes.
";

/// Why the program stops early.
enum Failure {
    Usage(String),
    Input(String),
    Refused(u64),
    Io(io::Error),
}

impl From<io::Error> for Failure {
    fn from(error: io::Error) -> Failure {
        Failure::Io(error)
    }
}

fn main() -> ExitCode {
    let arguments: Vec<String> = std::env::args().skip(1).collect();
    let mut out = BufWriter::new(io::stdout().lock());
    let result = command(&arguments, &mut out);
    let flushed = out.flush().map_err(Failure::from);
    match result.and(flushed) {
        Ok(()) => ExitCode::SUCCESS,
        Err(failure) => report(failure),
    }
}

fn report(failure: Failure) -> ExitCode {
    match failure {
        Failure::Usage(message) => eprint!("second: {message}\n{USAGE}"),
        Failure::Input(message) => eprintln!("second: {message}"),
        Failure::Io(error) => eprintln!("second: {error}"),
        Failure::Refused(number) => {
            eprintln!("{number}");
            return ExitCode::from(1);
        }
    }
    ExitCode::from(2)
}

fn command(arguments: &[String], out: &mut impl Write) -> Result<(), Failure> {
    let words: Vec<&str> = arguments.iter().map(String::as_str).collect();
    match words.as_slice() {
        ["--help" | "-h"] => Ok(out.write_all(USAGE.as_bytes())?),
        ["run", rest @ ..] => run(rest, out),
        ["audit", "--lines", file] => audit_lines(file, out),
        ["audit", file] => audit_file(file, out),
        ["make", t, d, p, holes @ ..] => {
            let sizes = [number(t)?, number(d)?, number(p)?];
            make(sizes, &numbers(holes)?, out)
        }
        ["generate", seed, "log", rest @ ..] => generate_log(number(seed)?, rest, out),
        ["generate", seed, "states", rest @ ..] => generate_states(number(seed)?, rest, out),
        ["lists"] => Ok(lists::print(out)?),
        ["small"] => Ok(small::print(out)?),
        [] => Err(usage("a command is missing")),
        [first, ..] => Err(usage(format!("not understood: {first}"))),
    }
}

fn usage(message: impl Into<String>) -> Failure {
    Failure::Usage(message.into())
}

fn number(text: &str) -> Result<u64, Failure> {
    log::parse_number(text).map_err(Failure::Usage)
}

fn numbers(texts: &[&str]) -> Result<Vec<u64>, Failure> {
    texts.iter().map(|text| number(text)).collect()
}

fn amount(text: &str) -> Result<usize, Failure> {
    usize::try_from(number(text)?).map_err(|_| usage(format!("too large: {text}")))
}

fn open(name: &str) -> Result<Box<dyn BufRead>, Failure> {
    if name == "-" {
        return Ok(Box::new(BufReader::new(io::stdin())));
    }
    match File::open(name) {
        Ok(file) => Ok(Box::new(BufReader::new(file))),
        Err(error) => Err(Failure::Input(format!("{name}: {error}"))),
    }
}

fn run(arguments: &[&str], out: &mut impl Write) -> Result<(), Failure> {
    let mut options = RunOptions::default();
    let mut name = None;
    for &argument in arguments {
        match argument {
            "--answers-only" => options.answers_only = true,
            "--words" => options.words = true,
            "--words-each" => options.words_each = true,
            "-" => name = Some(argument),
            _ if argument.starts_with('-') || name.is_some() => {
                return Err(usage(format!("not understood: {argument}")))
            }
            _ => name = Some(argument),
        }
    }
    let name = name.ok_or_else(|| usage("a log is missing"))?;
    log::run(open(name)?, options, out).map_err(|error| match error {
        LogError::Io(error) => Failure::Io(error),
        LogError::Line { .. } => Failure::Input(format!("{name}: {error}")),
    })
}

fn parse_words(text: &str) -> Result<Vec<u64>, Failure> {
    text.split_whitespace()
        .map(|word| log::parse_number(word).map_err(Failure::Input))
        .collect()
}

/// The whole file is one state.
fn audit_file(name: &str, out: &mut impl Write) -> Result<(), Failure> {
    let text = io::read_to_string(open(name)?)?;
    Ok(writeln!(out, "{}", audit(&parse_words(&text)?))?)
}

/// Each line is one state.
fn audit_lines(name: &str, out: &mut impl Write) -> Result<(), Failure> {
    for line in open(name)?.lines() {
        writeln!(out, "{}", audit(&parse_words(&line?)?))?;
    }
    Ok(())
}

fn make([t, d, p]: [u64; 3], holes: &[u64], out: &mut impl Write) -> Result<(), Failure> {
    let sizes = Sizes::new(t, d, p).ok_or(Failure::Refused(1))?;
    let mut state = vec![0; sizes.length()];
    match make_words([t, d, p], holes, &mut state) {
        0 => {}
        number => return Err(Failure::Refused(number)),
    }
    for word in state {
        writeln!(out, "{word}")?;
    }
    Ok(())
}

fn generate_log(seed: u64, arguments: &[&str], out: &mut impl Write) -> Result<(), Failure> {
    let mut options = LogOptions::default();
    let (mut sizes, mut holes) = (None, None);
    let mut rest = arguments;
    while let [first, more @ ..] = rest {
        rest = match (*first, more) {
            ("--sizes", [t, d, p, more @ ..]) => {
                sizes = Some([number(t)?, number(d)?, number(p)?]);
                more
            }
            ("--holes", more) => {
                let (words, more) = more.split_at(values(more));
                holes = Some(numbers(words)?);
                more
            }
            ("--requests", [n, more @ ..]) => {
                options.requests = amount(n)?;
                more
            }
            ("--batch", [n, more @ ..]) => {
                options.batch = batch_size(n)?;
                more
            }
            ("--oversize", more) => {
                options.oversize = true;
                more
            }
            _ => return Err(usage(format!("not understood: {first}"))),
        };
    }
    options.board = board(sizes, holes)?;
    Ok(out.write_all(generate::log(seed, options).as_bytes())?)
}

/// How many arguments come before the next option.
fn values(arguments: &[&str]) -> usize {
    let option = |argument: &&str| argument.starts_with('-');
    arguments.iter().position(option).unwrap_or(arguments.len())
}

/// The board that the options name, if any: sizes alone have no holes.
fn board(sizes: Option<[u64; 3]>, holes: Option<Vec<u64>>) -> Result<Option<Board>, Failure> {
    let Some([t, d, p]) = sizes else {
        return match holes {
            None => Ok(None),
            Some(_) => Err(usage("--holes goes with --sizes")),
        };
    };
    let sizes = Sizes::new(t, d, p).ok_or_else(|| usage("sizes not allowed"))?;
    let board = Board::new(sizes, &holes.unwrap_or_default());
    board.map(Some).ok_or_else(|| usage("holes not allowed"))
}

/// Longer batches would be refused.
fn batch_size(text: &str) -> Result<usize, Failure> {
    match amount(text)? {
        size @ 1..=65_536 => Ok(size),
        _ => Err(usage("a batch has 1 to 65536 requests")),
    }
}

fn generate_states(seed: u64, arguments: &[&str], out: &mut impl Write) -> Result<(), Failure> {
    let (mut count, mut damage) = (10, 3);
    let mut rest = arguments;
    while let [first, more @ ..] = rest {
        rest = match (*first, more) {
            ("--count", [n, more @ ..]) => {
                count = number(n)?;
                more
            }
            ("--damage", [k, more @ ..]) => {
                damage = amount(k)?;
                more
            }
            _ => return Err(usage(format!("not understood: {first}"))),
        };
    }
    let mut seeds = second::rng::Rng::new(seed);
    for _ in 0..count {
        let words = generate::state_with(seeds.word(), damage);
        writeln!(out, "{}", log::join(&words))?;
    }
    Ok(())
}
