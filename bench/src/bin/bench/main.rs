//! The times of the proved library beside those of plain Rust: one table of
//! ratios and a plot of the growth, from one run.
//!
//!     bench PLOT.svg
//!     bench instructions     # counted by callgrind, no times
//!     bench restarts         # how often guests get their own TreeLings again, no times

#![deny(warnings)]

mod agree;
mod cases;
mod growth;
mod instructions;
mod measure;
mod plot;
mod restarts;
mod shrinking;
mod states;
mod table;
mod timing;

use std::process::exit;
use std::{env, fs};

use growth::Growth;

fn main() {
    let arguments: Vec<String> = env::args().skip(1).collect();
    let arguments: Vec<&str> = arguments.iter().map(String::as_str).collect();
    let done = match arguments[..] {
        ["instructions"] => instructions::print(),
        ["restarts"] => {
            restarts::print();
            Ok(())
        }
        ["once", library, case, batch] => {
            let case = case.parse().expect("the number of a case");
            instructions::once(library, case, batch == "empty");
            Ok(())
        }
        ["audit", library, case, times] => {
            let case = case.parse().expect("the number of a case");
            let times = times.parse().expect("a number of audits");
            instructions::audit(library, case, times);
            Ok(())
        }
        [plot] => times(plot),
        _ => Err("usage: bench PLOT.svg | instructions | restarts".to_string()),
    };
    if let Err(message) = done {
        eprintln!("{message}");
        exit(2);
    }
}

/// The table of times, and the plot.
fn times(plot: &str) -> Result<(), String> {
    println!("{}\n", agree::check());
    let growth = Growth::measure();
    cases::print(&growth);
    fs::write(plot, plot::draw(&growth)).map_err(|error| format!("{plot}: {error}"))?;
    println!("\nThe growth is drawn in {plot}");
    Ok(())
}
