//! The proved library (`crates/ivleague`) behind safe functions. A slice goes
//! over as a pointer and a length; no call has a `requires`, so any words and
//! any length will do. An audit or a batch of more than 1,024 TreeLings takes
//! up to 2,120 KiB of stack, which a main thread has and a spawned one has only
//! if it asks.

mod face {
    extern "C" {
        pub fn ivleague_make(
            treelings: u64,
            domains: u64,
            frames: u64,
            holes: *const u64,
            hole_words: usize,
            state: *mut u64,
            length: usize,
        ) -> u64;
        pub fn ivleague_audit(state: *const u64, length: usize) -> u64;
        pub fn ivleague_serve(
            state: *mut u64,
            length: usize,
            requests: *const u64,
            request_words: usize,
            answers: *mut u64,
            answer_words: usize,
        ) -> u64;
    }
}

/// Makes a state of T, D and P with these holes, two words each: 0, 1 or 2.
pub fn make([treelings, domains, frames]: [u64; 3], holes: &[u64], state: &mut [u64]) -> u64 {
    // SAFETY: two slices that do not overlap, each a pointer, never null, and
    // its length, borrowed for the call; the callee is proved to stay within
    // them, to write to the state alone and to end.
    unsafe {
        face::ivleague_make(
            treelings,
            domains,
            frames,
            holes.as_ptr(),
            holes.len(),
            state.as_mut_ptr(),
            state.len(),
        )
    }
}

/// Audits a state: 0, 3 or 4.
pub fn audit(state: &[u64]) -> u64 {
    // SAFETY: the pointer and the length are one slice's, borrowed for the
    // call; the callee is proved to stay within it, to write nothing and to end.
    unsafe { face::ivleague_audit(state.as_ptr(), state.len()) }
}

/// Serves a batch: 0, or 3 to 6.
pub fn serve(state: &mut [u64], requests: &[u64], answers: &mut [u64]) -> u64 {
    // SAFETY: three slices that do not overlap, each a pointer and its length,
    // borrowed for the call; the callee is proved to stay within them and to end.
    unsafe {
        face::ivleague_serve(
            state.as_mut_ptr(),
            state.len(),
            requests.as_ptr(),
            requests.len(),
            answers.as_mut_ptr(),
            answers.len(),
        )
    }
}
