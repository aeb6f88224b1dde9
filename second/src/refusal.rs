//! "Request; state unchanged, the batch goes on": the numbers of refusals.

/// Why a request was refused; `number` gives document 01's number.
/// 15 is retired and is not used again.
#[derive(Clone, Copy, Debug, PartialEq, Eq)]
pub enum Refusal {
    /// "Call 1 to 7, and words it does not use 0?", "call 8 passes question 7" and
    /// "call 11 passes 7".
    Malformed,
    /// "Domain below D?"
    Domain,
    /// "Frame below P; for runs count at least 1, at most P − frame and at most 2,048?"
    Frame,
    /// "a named frame lies in a hole, asked right after 9".
    Hole,
    /// "Open: domain not live?"
    Live,
    /// "Other calls: live?"
    NotLive,
    /// "Map: frame unmapped by anyone?"
    Mapped,
    /// "Place found?"
    NoPlace,
    /// "Unmap, path: mapped by this domain?"
    NotMapped,
}

impl Refusal {
    pub fn number(self) -> u64 {
        match self {
            Refusal::Malformed => 7,
            Refusal::Domain => 8,
            Refusal::Frame => 9,
            Refusal::Live => 10,
            Refusal::NotLive => 11,
            Refusal::Mapped => 12,
            Refusal::NoPlace => 13,
            Refusal::NotMapped => 14,
            Refusal::Hole => 16,
        }
    }
}
