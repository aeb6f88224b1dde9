//! Every small request list, served and printed. The proved program
//! `small_lists` makes the same lists by code of its own; `README.md`
//! describes them.

use std::io::{self, Write};

use crate::controller::{Controller, Request};
use crate::layout::Sizes;
use crate::log::join;

/// Requests of a list at most.
const LONGEST: usize = 3;

type List = Vec<Request>;

/// A new state of T = 1, D = 2, P = 2 without holes.
fn new_state() -> Controller {
    Controller::new(Sizes::new(1, 2, 2).expect("these sizes are allowed"))
}

/// Calls 1 to 5 with every domain and frame they use, in order of their words.
/// The questions 7 to 9 come first, so a new state's answer tells which.
fn requests() -> Vec<Request> {
    (1..=5)
        .flat_map(|call| (0..=2).map(move |domain| [call, domain]))
        .flat_map(|[call, domain]| (0..=2).map(move |frame| [call, domain, frame]))
        .flat_map(|[call, domain, frame]| (0..=1).map(move |count| [call, domain, frame, count]))
        .filter(|&request| !matches!(new_state().answer(request)[0], 7..=9))
        .collect()
}

/// Each list with each request behind it, in order.
fn longer(lists: &[List], requests: &[Request]) -> Vec<List> {
    let pairs = lists
        .iter()
        .flat_map(|list| requests.iter().map(move |&request| (list, request)));
    pairs
        .map(|(list, request)| [list.as_slice(), &[request]].concat())
        .collect()
}

/// Every list, shorter first, then in order of its requests.
fn lists() -> Vec<List> {
    let requests = requests();
    let mut longest = vec![List::new()];
    let mut lists = longest.clone();
    for _ in 0..LONGEST {
        longest = longer(&longest, &requests);
        lists.extend_from_slice(&longest);
    }
    lists
}

/// Serves a list as one batch from a new state: its answer numbers.
fn numbers(list: &[Request]) -> Vec<u64> {
    let words = list.concat();
    let answers = new_state()
        .serve(&words, 2 * words.len())
        .expect("a small batch is not refused");
    answers.iter().map(|answer| answer[0]).collect()
}

/// Serves every list and prints its answer numbers on a line.
pub fn print(out: &mut impl Write) -> io::Result<()> {
    for list in lists() {
        writeln!(out, "{}", join(&numbers(&list)))?;
    }
    Ok(())
}

#[cfg(test)]
mod tests {
    use super::*;
    use std::collections::BTreeMap;

    const REQUESTS: [Request; 16] = [
        [1, 0, 0, 0],
        [1, 1, 0, 0],
        [2, 0, 0, 0],
        [2, 1, 0, 0],
        [3, 0, 0, 0],
        [3, 0, 1, 0],
        [3, 1, 0, 0],
        [3, 1, 1, 0],
        [4, 0, 0, 0],
        [4, 0, 1, 0],
        [4, 1, 0, 0],
        [4, 1, 1, 0],
        [5, 0, 0, 0],
        [5, 0, 1, 0],
        [5, 1, 0, 0],
        [5, 1, 1, 0],
    ];

    #[test]
    fn the_sixteen_requests() {
        assert_eq!(requests(), REQUESTS);
    }

    /// Strictly ordered, so none twice; as many as there are, so none missing.
    #[test]
    fn every_list_once_and_in_order() {
        let lists = lists();
        assert_eq!(lists.len(), 4_369);
        assert!(lists.iter().all(|list| list.len() <= 3));
        assert!(lists.concat().iter().all(|r| REQUESTS.contains(r)));
        let key = |list: &List| (list.len(), list.clone());
        assert!(lists.windows(2).all(|two| key(&two[0]) < key(&two[1])));
    }

    #[test]
    fn lines_by_hand() {
        let mut out = Vec::new();
        print(&mut out).unwrap();
        let text = String::from_utf8(out).unwrap();
        assert_eq!(text.lines().count(), 4_369);
        let lines: BTreeMap<List, &str> = lists().into_iter().zip(text.lines()).collect();

        let [open, open_other, close] = [[1, 0, 0, 0], [1, 1, 0, 0], [2, 0, 0, 0]];
        let [map, unmap, path] = [[3, 0, 0, 0], [4, 0, 0, 0], [5, 0, 0, 0]];
        let by_hand: [(&[Request], &str); 17] = [
            (&[], ""),
            (&[open], "0"),
            (&[close], "11"),
            (&[open, open], "0 10"),
            (&[open, open_other], "0 0"),
            (&[open, [4, 0, 1, 0]], "0 14"),
            (&[map, open], "11 0"),
            (&[open, map, path], "0 0 0"),
            (&[open, map, map], "0 0 12"),
            (&[open, map, [3, 0, 1, 0]], "0 0 0"),
            (&[open, map, [4, 0, 1, 0]], "0 0 14"),
            (&[open, map, [5, 1, 0, 0]], "0 0 11"),
            (&[open, unmap, map], "0 14 0"),
            (&[open, close, open], "0 0 0"),
            (&[open, close, path], "0 0 11"),
            (&[open_other, map, [3, 1, 0, 0]], "0 11 0"),
            (&[[5, 1, 1, 0]; 3], "11 11 11"),
        ];
        for (list, line) in by_hand {
            assert_eq!(lines[list], line, "{list:?}");
        }
    }
}
