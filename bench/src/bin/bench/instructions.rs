//! Instructions by `valgrind --tool=callgrind`: other work on the machine does not change them.

use std::hint::black_box;
use std::process::Command;
use std::{env, iter};

use compare::ivleague;

use crate::states::{self, Empty, Former, Request, MANY, TAKERS};

const LIBRARIES: [&str; 2] = ["proved", "baseline"];

/// A row's name, its state and requests, and how many pages or requests share what they cost.
type Case = (&'static str, fn() -> (Vec<u64>, Vec<Request>), u64);

const CASES: [Case; 12] = [
    ("map", || pages(3, false, false), MANY),
    ("unmap", || pages(4, false, false), MANY),
    ("path", || pages(5, false, false), MANY),
    ("map run, a page", || pages(6, true, false), MANY),
    ("unmap run, a page", || pages(7, true, false), MANY),
    (
        "fill",
        || {
            (
                states::opened_and_full(MANY).1,
                vec![[11, 0, 0, 0]; MANY as usize],
            )
        },
        MANY,
    ),
    (
        "map, eight holes, P = 65,544",
        || pages(3, false, true),
        MANY,
    ),
    (
        "map run, a page, the same board",
        || pages(6, true, true),
        MANY,
    ),
    (
        "map that takes, 4096 512 512, none owned",
        || states::takings(Former::Nowhere),
        TAKERS,
    ),
    (
        "the same, the former one last",
        || states::takings(Former::Far),
        TAKERS,
    ),
    (
        "the same, the former one first",
        || states::takings(Former::AtHand),
        TAKERS,
    ),
    (
        "trim, 2 1 2^13, one of two returned",
        || (states::shrunk(2, Empty::Half), vec![[8, 0, 0, 0]]),
        1,
    ),
];

/// A call for each of many pages, single or by runs, on a board with or without eight holes.
fn pages(call: u64, run: bool, holes: bool) -> (Vec<u64>, Vec<Request>) {
    let (words, stretches) = if holes {
        states::opened_with_holes()
    } else {
        let (opened, full) = states::opened_and_full(MANY);
        let words = if matches!(call, 3 | 6) { opened } else { full };
        (words, iter::once(0..MANY).collect())
    };
    let single = |frame| [call, 0, frame, 0];
    let requests = stretches.into_iter().flat_map(|frames| {
        if run {
            states::longest_runs(call, 0, frames)
        } else {
            frames.map(single).collect()
        }
    });
    (words, requests.collect())
}

/// Serves the requests of a case, or an empty batch, so that the instructions can be counted.
pub fn once(library: &str, number: usize, empty: bool) {
    let (_, case, _) = CASES[number];
    let (mut words, requests) = case();
    let served = if empty { &[][..] } else { &requests[..] };
    let mut answers = vec![0; 8 * served.len()];
    let serve = match library {
        "proved" => ivleague::serve,
        _ => baseline::serve,
    };
    assert_eq!(serve(&mut words, served.as_flattened(), &mut answers), 0);
}

/// The smallest states: a row's name, and the requests that lead to the state.
const AUDITS: [(&str, &[Request]); 2] = [
    ("audit, 1 1 1, new", &[]),
    (
        "audit, 1 1 1, its frame mapped",
        &[[1, 0, 0, 0], [3, 0, 0, 0]],
    ),
];

/// Audits a state so many times.
pub fn audit(library: &str, case: usize, times: u64) {
    let words = states::after(states::new(1, 1, 1), AUDITS[case].1);
    let audit = match library {
        "proved" => ivleague::audit,
        _ => baseline::audit,
    };
    for _ in 0..times {
        assert_eq!(audit(black_box(&words)), 0);
    }
}

/// The instructions of this program with these arguments.
fn counted(arguments: &[&str]) -> Result<u64, String> {
    let program = env::current_exe().map_err(|error| error.to_string())?;
    let output = Command::new("valgrind")
        .args(["--tool=callgrind", "--callgrind-out-file=/dev/null"])
        .arg(program)
        .args(arguments)
        .output()
        .map_err(|error| format!("valgrind: {error}"))?;
    let text = String::from_utf8_lossy(&output.stderr);
    text.lines()
        .find_map(|line| line.split("Collected :").nth(1)?.trim().parse().ok())
        .ok_or_else(|| format!("valgrind counted nothing:\n{text}"))
}

/// A row: what one of so many costs, the program itself apart.
fn row(
    name: &str,
    verb: &str,
    case: usize,
    [many, none]: [&str; 2],
    of: u64,
) -> Result<(), String> {
    let case = case.to_string();
    let mut each = [0.0; 2];
    for (each, library) in each.iter_mut().zip(LIBRARIES) {
        let all = counted(&[verb, library, &case, many])?;
        let rest = counted(&[verb, library, &case, none])?;
        *each = (all - rest) as f64 / of as f64;
    }
    let [proved, plain] = each;
    let ratio = proved / plain;
    println!("| {name:40} | {proved:7.1} | {plain:8.1} | {ratio:5.2} |");
    Ok(())
}

/// The table: instructions for each page or request, the audit apart, and of an audit.
pub fn print() -> Result<(), String> {
    println!("| Instructions (T = 16, D = 1, P = 65,536) |  Proved | Baseline | Ratio |");
    println!("|------------------------------------------|--------:|---------:|------:|");
    for (case, &(name, _, of)) in CASES.iter().enumerate() {
        row(name, "once", case, ["batch", "empty"], of)?;
    }
    for (case, (name, _)) in AUDITS.iter().enumerate() {
        row(name, "audit", case, ["1000", "0"], 1_000)?;
    }
    Ok(())
}
