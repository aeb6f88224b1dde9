//! The public call "serve a batch".

use crate::controller::{Answer, Controller};

/// "at most 262,144" request words.
pub const MOST_REQUEST_WORDS: usize = 262_144;

impl Controller {
    /// Serves a batch on the structures: its answers, or 5 or 6.
    pub fn serve(&mut self, requests: &[u64], answers_len: usize) -> Result<Vec<Answer>, u64> {
        // "Request words a multiple of 4, at most 262,144? No: 5."
        if !requests.len().is_multiple_of(4) || requests.len() > MOST_REQUEST_WORDS {
            return Err(5);
        }
        // "Answer words twice the request words? No: 6."
        if answers_len != 2 * requests.len() {
            return Err(6);
        }
        Ok(requests
            .chunks_exact(4)
            .map(|words| self.answer([words[0], words[1], words[2], words[3]]))
            .collect())
    }
}

/// "serve a batch (0 or 3 to 6)" on lent words; "a refusal writes nothing".
pub fn serve_words(state: &mut [u64], requests: &[u64], answers: &mut [u64]) -> u64 {
    match try_serve(state, requests, answers) {
        Ok(()) => 0,
        Err(number) => number,
    }
}

fn try_serve(state: &mut [u64], requests: &[u64], answers: &mut [u64]) -> Result<(), u64> {
    let mut controller = Controller::from_words(state)?;
    let answered = controller.serve(requests, answers.len())?;
    for (words, answer) in answers.chunks_exact_mut(8).zip(answered) {
        words.copy_from_slice(&answer);
    }
    state.copy_from_slice(&controller.render());
    Ok(())
}
