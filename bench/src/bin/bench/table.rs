//! The table of ratios.

use std::fmt;

pub struct Row {
    pub what: String,
    /// Seconds of the proved library.
    pub proved: f64,
    /// Seconds of what it is held against.
    pub beside: f64,
    pub target: Option<f64>,
}

impl Row {
    pub fn ratio(&self) -> f64 {
        self.proved / self.beside
    }

    fn verdict(&self) -> &'static str {
        match self.target {
            None => "",
            // A difference that was lost in the noise.
            Some(_) if self.proved <= 0.0 || self.beside <= 0.0 => "noise",
            Some(target) if self.ratio() <= target => "met",
            Some(_) => "MISSED",
        }
    }
}

impl fmt::Display for Row {
    fn fmt(&self, out: &mut fmt::Formatter) -> fmt::Result {
        let target = self
            .target
            .map_or(String::new(), |target| target.to_string());
        let digits = if self.ratio() < 0.1 { 3 } else { 2 };
        write!(
            out,
            "| {:<58} | {:>9} | {:>9} | {:>5.digits$} | {:>6} | {:<6} |",
            self.what,
            duration(self.proved),
            duration(self.beside),
            self.ratio(),
            target,
            self.verdict()
        )
    }
}

pub fn print_head() {
    println!(
        "| {:<58} | {:>9} | {:>9} | {:>5} | {:>6} | {:<6} |",
        "What (sizes are T D P)", "Proved", "Baseline", "Ratio", "Target", ""
    );
    println!(
        "|{:-<60}|{:->10}:|{:->10}:|{:->6}:|{:->7}:|{:-<8}|",
        "", "", "", "", "", ""
    );
}

/// Seconds as a number and its unit.
pub fn in_unit(seconds: f64) -> (f64, &'static str) {
    match seconds {
        s if s < 1e-6 => (s * 1e9, "ns"),
        s if s < 1e-3 => (s * 1e6, "us"),
        s if s < 1.0 => (s * 1e3, "ms"),
        s => (s, "s"),
    }
}

fn duration(seconds: f64) -> String {
    let (number, unit) = in_unit(seconds);
    let digits = match number {
        n if n < 10.0 => 2,
        n if n < 100.0 => 1,
        _ => 0,
    };
    format!("{number:.digits$} {unit}")
}
