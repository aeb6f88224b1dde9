//! Logs: a list of batches as text, and serving it.
//!
//! `sizes T D P` comes first, with up to eight pairs of a hole's first frame
//! and length behind it; four numbers are a request, `batch` ends a batch, `#`
//! begins a comment, of any bytes, to the end of its line. The end of the log
//! ends a last batch that has requests.

use std::fmt;
use std::io::{self, BufRead, Read, Write};

use crate::controller::{Answer, Controller, Request};
use crate::layout::{Board, Sizes};

/// Bytes of a line at most, with its end.
const MOST_LINE: usize = 1 << 20;

/// What one line of a log says.
#[derive(Clone, Copy, Debug, PartialEq, Eq)]
pub enum Line {
    Nothing,
    Sizes(Board),
    Request(Request),
    Batch,
}

/// A log that cannot be served on, or a failed read or write.
#[derive(Debug)]
pub enum LogError {
    Line { number: usize, message: String },
    Io(io::Error),
}

impl fmt::Display for LogError {
    fn fmt(&self, f: &mut fmt::Formatter<'_>) -> fmt::Result {
        match self {
            LogError::Line { number, message } => write!(f, "line {number}: {message}"),
            LogError::Io(error) => write!(f, "{error}"),
        }
    }
}

impl std::error::Error for LogError {}

impl From<io::Error> for LogError {
    fn from(error: io::Error) -> LogError {
        LogError::Io(error)
    }
}

/// A decimal number of 64 bits, digits only.
pub fn parse_number(text: &str) -> Result<u64, String> {
    if text.is_empty() || !text.bytes().all(|byte| byte.is_ascii_digit()) {
        return Err(format!("not a number: {text}"));
    }
    text.parse().map_err(|_| format!("past 64 bits: {text}"))
}

fn parse_numbers<const N: usize>(fields: &[&str]) -> Result<[u64; N], String> {
    let mut numbers = [0; N];
    if fields.len() != N {
        return Err(format!("{N} numbers expected, {} found", fields.len()));
    }
    for (number, field) in numbers.iter_mut().zip(fields) {
        *number = parse_number(field)?;
    }
    Ok(numbers)
}

/// Reads one line without its comment.
pub fn parse_line(text: &str) -> Result<Line, String> {
    let fields: Vec<&str> = text.split_whitespace().collect();
    match fields.as_slice() {
        [] => Ok(Line::Nothing),
        ["batch"] => Ok(Line::Batch),
        ["sizes", rest @ ..] => parse_sizes(rest).map(Line::Sizes),
        fields => parse_numbers(fields).map(Line::Request),
    }
}

/// T, D and P, then two numbers a hole.
fn parse_sizes(fields: &[&str]) -> Result<Board, String> {
    let (sizes, holes) = fields.split_at(fields.len().min(3));
    let [t, d, p] = parse_numbers(sizes)?;
    let holes: Result<Vec<u64>, String> = holes.iter().map(|field| parse_number(field)).collect();
    let holes = holes?;
    let sizes = Sizes::new(t, d, p).ok_or("sizes not allowed")?;
    Ok(Board::new(sizes, &holes).ok_or("holes not allowed")?)
}

/// Reads a log batch by batch.
pub struct Reader<R> {
    input: R,
    line: usize,
    board: Board,
    ended: bool,
}

impl<R: BufRead> Reader<R> {
    /// Reads up to and with the `sizes` line.
    pub fn new(mut input: R) -> Result<Reader<R>, LogError> {
        let mut line = 0;
        loop {
            let read = read_line(&mut input, &mut line)?;
            match read {
                Some(Line::Nothing) => {}
                Some(Line::Sizes(board)) => {
                    return Ok(Reader {
                        input,
                        line,
                        board,
                        ended: false,
                    })
                }
                Some(_) | None => return Err(at(line, "a sizes line must come first")),
            }
        }
    }

    pub fn board(&self) -> Board {
        self.board
    }

    /// The next batch's request words, or none at the end.
    pub fn next_batch(&mut self) -> Result<Option<Vec<u64>>, LogError> {
        let mut requests = Vec::new();
        while !self.ended {
            match read_line(&mut self.input, &mut self.line)? {
                Some(Line::Nothing) => {}
                Some(Line::Request(request)) => requests.extend(request),
                Some(Line::Batch) => return Ok(Some(requests)),
                Some(Line::Sizes(_)) => return Err(at(self.line, "a second sizes line")),
                None => self.ended = true,
            }
        }
        Ok((!requests.is_empty()).then_some(requests))
    }
}

fn at(number: usize, message: impl Into<String>) -> LogError {
    LogError::Line {
        number,
        message: message.into(),
    }
}

/// A line without its comment and, if it is the first, without a byte-order mark.
fn said(bytes: &[u8], first: bool) -> &[u8] {
    let bare = bytes.split(|&byte| byte == b'#').next().unwrap_or(bytes);
    match bare.strip_prefix(b"\xef\xbb\xbf") {
        Some(rest) if first => rest,
        _ => bare,
    }
}

/// The next line, or none at the end; either way its number is counted.
fn read_line(input: &mut impl BufRead, number: &mut usize) -> Result<Option<Line>, LogError> {
    *number += 1;
    let mut bytes = Vec::new();
    let most = MOST_LINE as u64 + 1;
    if input.by_ref().take(most).read_until(b'\n', &mut bytes)? == 0 {
        return Ok(None);
    }
    if bytes.len() > MOST_LINE {
        return Err(at(*number, "the line is too long"));
    }
    let said = said(&bytes, *number == 1);
    let text = std::str::from_utf8(said).map_err(|_| at(*number, "not text"))?;
    parse_line(text)
        .map(Some)
        .map_err(|message| at(*number, message))
}

/// What `run` prints besides the answers.
#[derive(Clone, Copy, Debug, Default)]
pub struct RunOptions {
    /// Leave the `batch N` lines out.
    pub answers_only: bool,
    /// The state's words after the last batch.
    pub words: bool,
    /// The state's words after each batch.
    pub words_each: bool,
}

/// Serves a log from a new state and prints the answers.
pub fn run(input: impl BufRead, options: RunOptions, out: &mut impl Write) -> Result<(), LogError> {
    let mut reader = Reader::new(input)?;
    let mut controller = Controller::new(reader.board());
    while let Some(requests) = reader.next_batch()? {
        let number = match controller.serve(&requests, 2 * requests.len()) {
            Ok(answers) => {
                print_answers(&answers, out)?;
                0
            }
            Err(number) => number,
        };
        if !options.answers_only {
            writeln!(out, "batch {number}")?;
        }
        if options.words_each {
            print_words(&controller, out)?;
        }
    }
    if options.words {
        print_words(&controller, out)?;
    }
    Ok(())
}

fn print_answers(answers: &[Answer], out: &mut impl Write) -> io::Result<()> {
    for answer in answers {
        writeln!(out, "{}", join(answer))?;
    }
    Ok(())
}

fn print_words(controller: &Controller, out: &mut impl Write) -> io::Result<()> {
    writeln!(out, "words")?;
    for word in controller.render() {
        writeln!(out, "{word}")?;
    }
    Ok(())
}

/// Words in decimal, separated by single spaces.
pub fn join(words: &[u64]) -> String {
    let texts: Vec<String> = words.iter().map(u64::to_string).collect();
    texts.join(" ")
}
