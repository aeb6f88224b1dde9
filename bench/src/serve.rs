//! The questions of a batch and of a request.

use crate::audit::audit;
use crate::calls::Answer;
use crate::layout::*;

/// The most frames of a run.
pub const LONGEST_RUN: u64 = 2_048;

/// Serves a batch: 0, or 3 to 6.
pub fn serve(state: &mut [u64], requests: &[u64], answers: &mut [u64]) -> u64 {
    match audit(state) {
        0 => {}
        refusal => return refusal,
    }
    let (requests, rest) = requests.as_chunks::<4>();
    if !rest.is_empty() || requests.len() > 65_536 {
        return 5;
    }
    if answers.len() != 8 * requests.len() {
        return 6;
    }
    let mut state = State::new(state);
    let (answers, _) = answers.as_chunks_mut::<8>();
    for (request, answer) in requests.iter().zip(answers) {
        *answer = state
            .answer(request)
            .unwrap_or_else(|number| [number, 0, 0, 0, 0, 0, 0, 0]);
    }
    0
}

fn well_formed(&[call, _, frame, count]: &[u64; 4]) -> bool {
    match call {
        1 | 2 | 8 | 11 => frame == 0 && count == 0,
        3..=5 => count == 0,
        6 | 7 => true,
        _ => false,
    }
}

impl State<'_> {
    fn answer(&mut self, request: &[u64; 4]) -> Answer {
        let &[call, domain, frame, count] = request;
        if !well_formed(request) {
            return Err(7);
        }
        if domain >= self.domains.len() as u64 {
            return Err(8);
        }
        let names_frames = (3..=7).contains(&call);
        if names_frames && !self.frames_legal(request) {
            return Err(9);
        }
        if names_frames && self.names_hole(request) {
            return Err(16);
        }
        let (d, frame, count) = (domain as usize, frame as usize, count as usize);
        match (call, self.domains[d][LIVE]) {
            (1, 0) => self.open(d),
            (1, _) => Err(10),
            (_, 0) => Err(11),
            (2, _) => self.close(d),
            (3, _) => self.map(d, frame),
            (4, _) => self.unmap(d, frame),
            (5, _) => self.path(d, frame),
            (6, _) => self.map_run(d, frame, count),
            (7, _) => self.unmap_run(d, frame, count),
            (8, _) => self.trim(d),
            _ => self.fill(d),
        }
    }

    /// Question 9 of calls 3 to 7.
    fn frames_legal(&self, &[call, _, frame, count]: &[u64; 4]) -> bool {
        let frames = self.leaves.len() as u64;
        frame < frames && (call < 6 || (1..=LONGEST_RUN.min(frames - frame)).contains(&count))
    }

    /// Question 16 of calls 3 to 7: the first hole that ends behind the frame begins at the last
    /// frame or before it. At most one comparison a hole, and one more.
    fn names_hole(&self, &[call, _, frame, count]: &[u64; 4]) -> bool {
        let end = if call < 6 { frame + 1 } else { frame + count };
        let mut holes = self.holes.iter();
        let next = holes.find(|[first, length]| frame < first + length);
        next.is_some_and(|[first, _]| *first < end)
    }
}
