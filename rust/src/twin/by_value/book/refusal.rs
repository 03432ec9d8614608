// Written by `twin_source` from crates/book/src/refusal.rt.
// What a book or a call is refused for, and the papers' number of each. One more refusal is one more case here and in specs/Numbers.antt. Assumes nothing.

// What a book or a call is refused for: 1 to 6 and 9 to 11 are a book's own, 7, 8 and 17 those of a call.
#[derive(Clone, Copy, Debug, PartialEq, Eq)]
pub enum Refusal {
    WrongSize,
    WrongHead,
    BrokenChain,
    WrongField,
    StrayRecord,
    TooManyBlocks,
    WrongBuffer,
    WrongCall,
    WrongHours,
    WrongLink,
    TooManySteps,
    WrongList,
}

impl From<Refusal> for u8 {

    // The papers' number of a refusal.
    fn from(why: Refusal) -> u8 {
        match why {
            Refusal::WrongSize => 1,
            Refusal::WrongHead => 2,
            Refusal::BrokenChain => 3,
            Refusal::WrongField => 4,
            Refusal::StrayRecord => 5,
            Refusal::TooManyBlocks => 6,
            Refusal::WrongBuffer => 7,
            Refusal::WrongCall => 8,
            Refusal::WrongHours => 9,
            Refusal::WrongLink => 10,
            Refusal::TooManySteps => 11,
            Refusal::WrongList => 17,
        }
    }
}

// Refused for `why` where it holds.
pub fn refuse(holds: bool, why: Refusal) -> Result<(), Refusal>
{
    if holds { Err(why) } else { Ok(()) }
}
