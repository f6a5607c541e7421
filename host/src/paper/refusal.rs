//! "Numbers of refusal".

/// Why a run stopped, with document 01's numbers.
#[derive(Clone, Copy, Debug, PartialEq, Eq)]
pub enum Refusal {
    BadPart = 1,
    BadCells = 2,
    BadCache = 3,
    BadCounts = 4,
    BadState = 5,
    BadKind = 6,
    ShortBody = 7,
    BadLevel = 8,
    NoRoom = 9,
}

impl Refusal {
    /// The number of an optional refusal; 0 for none.
    pub fn number(refusal: Option<Refusal>) -> u8 {
        refusal.map_or(0, |refusal| refusal as u8)
    }
}
