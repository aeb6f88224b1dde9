//! The proved library beside the second program: the number of each call and
//! every word that it leaves. An error says where the two differ.

use second::rng::Rng;
use second::Board;

use crate::ivleague;

/// What an answer buffer holds before a batch.
const BEFORE: u64 = 9;

/// How often each number was given by both.
#[derive(Default)]
pub struct Totals {
    pub batches: [u64; 7],
    pub answers: [u64; 17],
    pub audits: [u64; 5],
}

impl Totals {
    pub fn add(&mut self, other: &Totals) {
        let add = |sums: &mut [u64], more: &[u64]| {
            sums.iter_mut().zip(more).for_each(|(sum, n)| *sum += n);
        };
        add(&mut self.batches, &other.batches);
        add(&mut self.answers, &other.answers);
        add(&mut self.audits, &other.audits);
    }

    /// Counts a batch and, if it was served, its answers.
    pub fn batch(&mut self, served: &Served) {
        self.batches[served.number as usize] += 1;
        if served.number == 0 {
            for answer in served.answers.chunks(8) {
                self.answers[answer[0] as usize] += 1;
            }
        }
    }
}

/// What the second program made of a batch.
pub struct Served {
    pub number: u64,
    pub answers: Vec<u64>,
    pub state: Vec<u64>,
}

impl Served {
    /// On copies of a state and of a buffer of so many answer words.
    pub fn new(state: &[u64], requests: &[u64], room: usize) -> Served {
        let (mut state, mut answers) = (state.to_vec(), vec![BEFORE; room]);
        let number = second::serve_words(&mut state, requests, &mut answers);
        Served {
            number,
            answers,
            state,
        }
    }
}

/// Now and then, requests and a number of answer words that are refused: by 5
/// with a word too few, by 6 with an answer word too many.
pub fn refused<'a>(requests: &'a [u64], rng: &mut Rng) -> Option<(&'a [u64], usize)> {
    let (_, cut) = requests.split_last()?;
    match rng.below(12) {
        0 => Some((cut, 2 * requests.len())),
        1 => Some((requests, 2 * requests.len() + 1)),
        _ => None,
    }
}

/// Makes a state of T, D and P with these holes: 0, 1 or 2.
pub fn make(sizes: [u64; 3], holes: &[u64], words: &mut [u64]) -> Result<u64, String> {
    let mut second = words.to_vec();
    let proved = ivleague::make(sizes, holes, words);
    let number = same(proved, second::make_words(sizes, holes, &mut second))?;
    same_words(words, &second)?;
    Ok(number)
}

/// A new state, made in a buffer that holds something.
pub fn new_state(board: Board) -> Result<Vec<u64>, String> {
    let sizes = board.sizes();
    let mut words = vec![BEFORE; sizes.length()];
    let sizes = [sizes.treelings(), sizes.domains(), sizes.frames()].map(|size| size as u64);
    match make(sizes, &board.holes().words(), &mut words)? {
        0 => Ok(words),
        number => Err(format!("making a state gives {number}")),
    }
}

/// Audits a state: 0, 3 or 4.
pub fn audit(words: &[u64]) -> Result<u64, String> {
    same(ivleague::audit(words), second::audit(words))
}

/// Serves a batch by the proved library, as the second program did.
pub fn serve(state: &mut [u64], requests: &[u64], second: &Served) -> Result<(), String> {
    let mut answers = vec![BEFORE; second.answers.len()];
    same(
        ivleague::serve(state, requests, &mut answers),
        second.number,
    )?;
    if let Some(at) = first_other(&answers, &second.answers) {
        let (k, from) = (at / 8, at / 8 * 8);
        let answer = |words: &[u64]| words[from..words.len().min(from + 8)].to_vec();
        return Err(format!(
            "request {} {:?}: proved {:?}, second {:?}",
            k + 1,
            requests.chunks(4).nth(k).unwrap_or(&[]),
            answer(&answers),
            answer(&second.answers)
        ));
    }
    same_words(state, &second.state)
}

fn same(proved: u64, second: u64) -> Result<u64, String> {
    if proved == second {
        Ok(proved)
    } else {
        Err(format!("proved {proved}, second {second}"))
    }
}

fn same_words(proved: &[u64], second: &[u64]) -> Result<(), String> {
    match first_other(proved, second) {
        None => Ok(()),
        Some(at) => same(proved[at], second[at])
            .map(drop)
            .map_err(|why| format!("state word {at}: {why}")),
    }
}

/// The index of the first word that differs; the lengths are equal.
fn first_other(one: &[u64], other: &[u64]) -> Option<usize> {
    if one == other {
        return None;
    }
    one.iter().zip(other).position(|(a, b)| a != b)
}
