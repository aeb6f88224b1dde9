//! Logs and the program itself.

use std::io::Write;
use std::process::{Command, Output, Stdio};

use second::generate::{self, LogOptions};
use second::log::{parse_line, run, Line, LogError, RunOptions};

const EXAMPLE: &str = "\
# the example of document 01
sizes 2 2 16

1 0 0 0
1 0 0 0
3 0 5 0
1 1 0 0
3 1 6 0
3 1 5 0
4 1 5 0
3 0 7 0
4 0 5 0
3 0 8 0
";

const TEN: &str = "\
0 0 0 0 0 0 0 0
10 0 0 0 0 0 0 0
0 0 0 0 0 0 0 1
0 0 0 0 0 0 0 0
0 0 1 8 64 512 0 1
12 0 0 0 0 0 0 0
14 0 0 0 0 0 0 0
0 0 0 0 0 0 1 1
0 0 0 0 0 0 0 1
0 0 0 0 0 0 0 1
";

fn second(arguments: &[&str], input: &str) -> Output {
    let mut child = Command::new(env!("CARGO_BIN_EXE_second"))
        .args(arguments)
        .stdin(Stdio::piped())
        .stdout(Stdio::piped())
        .stderr(Stdio::piped())
        .spawn()
        .unwrap();
    // A program that stops early may close its input first.
    let _ = child.stdin.take().unwrap().write_all(input.as_bytes());
    child.wait_with_output().unwrap()
}

fn stdout(output: &Output) -> &str {
    std::str::from_utf8(&output.stdout).unwrap()
}

fn stderr(output: &Output) -> &str {
    std::str::from_utf8(&output.stderr).unwrap()
}

fn served(log: impl AsRef<[u8]>) -> (String, Option<usize>) {
    let mut out = Vec::new();
    let result = run(log.as_ref(), RunOptions::default(), &mut out);
    let line = match result {
        Ok(()) => None,
        Err(LogError::Line { number, .. }) => Some(number),
        Err(error) => panic!("{error}"),
    };
    (String::from_utf8(out).unwrap(), line)
}

#[test]
fn the_example_prints_its_ten_lines() {
    let output = second(&["run", "--answers-only", "-"], EXAMPLE);
    assert!(output.status.success());
    assert_eq!(stdout(&output), TEN);
    let output = second(&["run", "-"], EXAMPLE);
    assert_eq!(stdout(&output), format!("{TEN}batch 0\n"));
}

#[test]
fn words_follow_at_the_end_or_after_each_batch() {
    let log = "sizes 1 1 1\nbatch\n1 0 0 0\n";
    let output = second(&["run", "--words", "-"], log);
    let lines: Vec<&str> = stdout(&output).lines().collect();
    assert_eq!(
        lines[..5],
        ["batch 0", "0 0 0 0 0 0 0 0", "batch 0", "words", "1"]
    );
    assert_eq!(lines.len(), 4 + 549);
    assert_eq!(lines[4 + 25], "1");
    let output = second(&["run", "--words-each", "--answers-only", "-"], log);
    assert_eq!(stdout(&output).lines().count(), 2 * 550 + 1);
}

#[test]
fn holes_follow_the_sizes() {
    let log =
        "sizes 1 1 9 0 1 1 1 2 1 3 1 4 1 5 1 6 1 8 1 # eight\n1 0 0 0\n3 0 6 0\n3 0 7 0\n6 0 7 2\n";
    let (text, line) = served(log);
    assert_eq!(line, None);
    let numbers: Vec<&str> = text.lines().map(|l| l.split(' ').next().unwrap()).collect();
    assert_eq!(numbers, ["0", "16", "0", "16", "batch"]);
    let output = second(&["run", "--words", "-"], "sizes 1 1 9 2 3\nbatch\n");
    let lines: Vec<&str> = stdout(&output).lines().collect();
    assert_eq!(lines.len(), 2 + 25 + 6 + 517 + 9);
    assert_eq!(lines[2..][8..12], ["1", "2", "3", "0"]);
}

#[test]
fn a_log_asks_the_fill() {
    let log = "sizes 1 1 9\n1 0 0 0\n11 0 0 0\n6 0 2 7\n11 0 0 0 # 7 of 4096\n11 0 0 1\n";
    let output = second(&["run", "--answers-only", "-"], log);
    let lines: Vec<&str> = stdout(&output).lines().collect();
    assert_eq!(lines[1], "0 0 0 0 0 0 0 0");
    assert_eq!(lines[3..], ["0 1 2904 4096 0 0 0 0", "7 0 0 0 0 0 0 0"]);
}

#[test]
fn a_log_trims() {
    let log = "sizes 1 1 9\n1 0 0 0\n6 0 2 7\n8 0 0 0\n7 0 2 7\n8 0 0 0 # one\n8 0 0 0\n8 0 1 0\n";
    let output = second(&["run", "--answers-only", "-"], log);
    let lines: Vec<&str> = stdout(&output).lines().collect();
    let zeros = "0 0 0 0 0 0 0 0";
    let trims = [lines[2], lines[4], lines[5], lines[6]];
    assert_eq!(trims, [zeros, "0 0 0 0 0 0 0 1", zeros, "7 0 0 0 0 0 0 0"]);
}

#[test]
fn empty_batches_are_served_and_an_empty_end_is_none() {
    assert_eq!(served("sizes 1 1 1\n"), (String::new(), None));
    let zero = "batch 0\n".to_string();
    assert_eq!(
        served("sizes 1 1 1\nbatch\n# end\n\n"),
        (zero.clone(), None)
    );
    assert_eq!(served("sizes 1 1 1\nbatch\nbatch"), (zero.repeat(2), None));
    let (text, line) = served("sizes 1 1 1\n9 9 9 9");
    assert_eq!((text.as_str(), line), ("7 0 0 0 0 0 0 0\nbatch 0\n", None));
}

#[test]
fn malformed_logs_name_their_line() {
    for (log, number) in [
        ("", 1),
        ("# nothing\n\n", 3),
        ("1 0 0 0\n", 1),
        ("batch\n", 1),
        ("\nsizes 0 1 1\n", 2),
        ("sizes 1 4097 1\n", 1),
        ("sizes 1 1\n", 1),
        ("sizes 1 1 1 0\n", 1),
        ("sizes 1 1 1 0 2\n", 1),
        ("sizes 1 1 1 0 0\n", 1),
        ("sizes 1 1 1 1 1\n", 1),
        ("sizes 1 1 9 0 5 4 1\n", 1),
        ("sizes 1 1 9 4 1 0 2\n", 1),
        ("sizes 1 1 9 4 1 5\n", 1),
        ("sizes 1 1 9 4 x\n", 1),
        ("sizes 1 1 9 1 18446744073709551615\n", 1),
        ("sizes 1 1 9 0 1 1 1 2 1 3 1 4 1 5 1 6 1 7 1 8 1\n", 1),
        ("sizes 1 1 9 0 1 # 2\nsizes 1 1 9\n", 2),
        ("sizes 1 1 x\n", 1),
        ("sizes 1 1 1\nsizes 1 1 1\n", 2),
        ("sizes 1 1 1\n1 0 0\n", 2),
        ("sizes 1 1 1\n1 0 0 0 0\n", 2),
        ("sizes 1 1 1\n\n# c\n1 0 0 -1\n", 4),
        ("sizes 1 1 1\n1 0 0 +1\n", 2),
        ("sizes 1 1 1\n1 0 0 0x1\n", 2),
        ("sizes 1 1 1\n1 0 0 18446744073709551616\n", 2),
        ("sizes 1 1 1\nbatch 1\n", 2),
        ("sizes 1 1 1\nBatch\n", 2),
        ("sizes 1 1 1\n1 0 # open\n", 2),
        ("sizes 1 1 1\n\u{feff}1 0 0 0\n", 2),
    ] {
        assert_eq!(served(log), (String::new(), Some(number)), "{log:?}");
    }
    assert_eq!(
        parse_line(" 18446744073709551615\t0 00 7 \r\n"),
        Ok(Line::Request([u64::MAX, 0, 0, 7]))
    );
}

#[test]
fn comments_of_any_bytes_and_a_byte_order_mark_are_let_be() {
    let answer = "0 0 0 0 0 0 0 0\nbatch 0\n".to_string();
    for log in [
        &b"sizes 1 1 1\n1 0 0 0 # open\n"[..],
        b"sizes 1 1 1# one of each\n1 0 0 0#\nbatch # end\n",
        b"\xef\xbb\xbfsizes 1 1 1\n# caf\xe9\n1 0 0 0 # \xff\n",
        b"\xef\xbb\xbf# a comment\nsizes 1 1 1\n1 0 0 0\n",
    ] {
        assert_eq!(served(log), (answer.clone(), None), "{log:?}");
    }
    assert_eq!(served(b"sizes 1 1 1\n\xe9 # x\n"), (String::new(), Some(2)));
}

#[test]
fn a_line_has_at_most_a_mebibyte() {
    let comment = |length| format!("sizes 1 1 1\n#{}\n", "x".repeat(length));
    assert_eq!(served(comment((1 << 20) - 2)), (String::new(), None));
    assert_eq!(served(comment((1 << 20) - 1)), (String::new(), Some(2)));
}

#[test]
fn nothing_of_the_batch_with_the_malformed_line_is_served() {
    let log = "sizes 1 1 1\n1 0 0 0\nbatch\n3 0 0 0\nwhat\nbatch\n";
    let output = second(&["run", "-"], log);
    assert_eq!(output.status.code(), Some(2));
    assert_eq!(stdout(&output), "0 0 0 0 0 0 0 0\nbatch 0\n");
    assert!(stderr(&output).contains("line 5"), "{}", stderr(&output));
}

#[test]
fn an_oversize_batch_is_refused_by_5_and_changes_nothing() {
    let options = LogOptions {
        requests: 300,
        ..LogOptions::default()
    };
    let plain = generate::log(3, options);
    let oversize = generate::log(
        3,
        LogOptions {
            oversize: true,
            ..options
        },
    );
    let (plain, line) = served(&plain);
    assert_eq!(line, None);
    let (oversize, line) = served(&oversize);
    assert_eq!(line, None);
    assert_eq!(oversize.matches("batch 5\n").count(), 1);
    assert_eq!(oversize.replacen("batch 5\n", "", 1), plain);
}

#[test]
fn states_are_made_and_audited() {
    let made = second(&["make", "2", "2", "16"], "");
    assert!(made.status.success());
    assert_eq!(stdout(&made).lines().count(), 25 + 12 + 1_034 + 16);
    let output = second(&["audit", "-"], stdout(&made));
    assert_eq!((stdout(&output), output.status.code()), ("0\n", Some(0)));
    let made = second(&["make", "2", "2", "16", "0", "3", "9", "7"], "");
    assert!(made.status.success());
    let words: Vec<&str> = stdout(&made).lines().collect();
    assert_eq!(words[8..13], ["2", "0", "3", "9", "7"]);
    let output = second(&["audit", "-"], stdout(&made));
    assert_eq!((stdout(&output), output.status.code()), ("0\n", Some(0)));
    for holes in [&["0"][..], &["0", "0"], &["9", "8"], &["5", "2", "6", "1"]] {
        let output = second(&[&["make", "2", "2", "16"], holes].concat(), "");
        assert_eq!((stderr(&output), output.status.code()), ("1\n", Some(1)));
    }
    let output = second(&["audit", "-"], "");
    assert_eq!(stdout(&output), "3\n");
    let output = second(&["audit", "-"], "1 x");
    assert_eq!(output.status.code(), Some(2));
    let output = second(&["make", "0", "2", "16"], "");
    assert_eq!((stderr(&output), output.status.code()), ("1\n", Some(1)));
}

#[test]
fn generated_cases_can_be_read_again() {
    let log = second(
        &["generate", "4", "log", "--requests", "200", "--batch", "7"],
        "",
    );
    let output = second(&["run", "--answers-only", "-"], stdout(&log));
    assert!(output.status.success());
    assert_eq!(stdout(&output).lines().count(), 200);
    let log = second(&["generate", "4", "log", "--sizes", "1", "2", "3"], "");
    assert!(stdout(&log).contains("\nsizes 1 2 3\n"));
    let sizes = ["--sizes", "1", "2", "30", "--holes", "0", "1", "29", "1"];
    let options = [&sizes[..], &["--requests", "150"]].concat();
    let log = second(&[&["generate", "4", "log"], &options[..]].concat(), "");
    assert!(stdout(&log).contains("\nsizes 1 2 30 0 1 29 1\n"));
    let output = second(&["run", "--answers-only", "-"], stdout(&log));
    assert_eq!(stdout(&output).lines().count(), 150);
    assert!(stdout(&output).lines().any(|line| line.starts_with("16 ")));
    let states = second(
        &["generate", "4", "states", "--count", "12", "--damage", "0"],
        "",
    );
    let output = second(&["audit", "--lines", "-"], stdout(&states));
    assert_eq!(stdout(&output), "0\n".repeat(12));
}

#[test]
fn unknown_usage_is_2_and_help_is_0() {
    for arguments in [
        &[][..],
        &["what"],
        &["run"],
        &["run", "--what", "-"],
        &["run", "a", "b"],
        &["make", "1", "1"],
        &["make", "1", "1", "x"],
        &["generate", "1"],
        &["generate", "x", "log"],
        &["generate", "1", "log", "--sizes", "0", "1", "1"],
        &["generate", "1", "log", "--holes", "0", "1"],
        &[
            "generate", "1", "log", "--sizes", "1", "1", "1", "--holes", "0",
        ],
        &[
            "generate", "1", "log", "--sizes", "1", "1", "1", "--holes", "0", "2",
        ],
        &["generate", "1", "log", "--batch", "0"],
        &["generate", "1", "states", "--oversize"],
        &["run", "no/such/log"],
    ] {
        let output = second(arguments, "");
        assert_eq!(output.status.code(), Some(2), "{arguments:?}");
        assert!(!output.stderr.is_empty());
    }
    let help = second(&["--help"], "");
    assert!(help.status.success());
    assert!(stdout(&help).starts_with("usage:"));
}
