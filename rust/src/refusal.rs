//! The refusals, in the order in which they are asked.

use std::error::Error;
use std::fmt;

/// Why a call was refused: the first of these that applies. Nothing has changed, and no answer was sent.
#[derive(Clone, Copy, Debug, PartialEq, Eq, PartialOrd, Ord, Hash)]
#[repr(u32)]
pub enum Refusal {
    /// The record is not sound: no call left it so.
    UnsoundRecord = 1,
    /// The answer room has under 1,024 words.
    SmallRoom = 2,
    /// No cells are lent, or not as many as at the start; or a start with none, or more than 4,096.
    WrongCells = 3,
    /// The event breaks a rule of its form.
    NotWellFormed = 4,
    /// An operation names a cell that is not there.
    CellOutside = 5,
    /// The number is neither live nor new.
    NotLive = 6,
    /// The number is live, but not the front.
    NotFront = 7,
    /// A fragment for a front that is finished or has failed.
    FrontFinished = 8,
    /// A fragment for the front with another coordinator, or a single's.
    OtherCoordinator = 9,
    /// A new number while 64 are live.
    TooManyLive = 10,
    /// A fragment for a front that has run 8.
    TooManyFragments = 11,
    /// A decision for a number above the largest accepted.
    NotYetAccepted = 12,
    /// A commit of a front that is not finished.
    NotFinished = 13,
    /// A commit of a front that failed.
    Failed = 14,
}

impl Refusal {
    /// All of them, in order.
    pub const ALL: [Refusal; 14] = [
        Refusal::UnsoundRecord,
        Refusal::SmallRoom,
        Refusal::WrongCells,
        Refusal::NotWellFormed,
        Refusal::CellOutside,
        Refusal::NotLive,
        Refusal::NotFront,
        Refusal::FrontFinished,
        Refusal::OtherCoordinator,
        Refusal::TooManyLive,
        Refusal::TooManyFragments,
        Refusal::NotYetAccepted,
        Refusal::NotFinished,
        Refusal::Failed,
    ];

    /// The number that the engine returns for it, 1 to 14.
    pub const fn number(self) -> u32 {
        self as u32
    }

    /// The refusal of a returned number; none for 0, which is accepted, and for what is no refusal.
    pub fn from_number(number: u32) -> Option<Refusal> {
        Refusal::ALL.into_iter().find(|refusal| refusal.number() == number)
    }
}

impl fmt::Display for Refusal {
    fn fmt(&self, f: &mut fmt::Formatter<'_>) -> fmt::Result {
        f.write_str(match self {
            Refusal::UnsoundRecord => "the record is not sound",
            Refusal::SmallRoom => "the answer room has under 1,024 words",
            Refusal::WrongCells => "the cells lent are none, too many, or not as many as at the start",
            Refusal::NotWellFormed => "the event is not well formed",
            Refusal::CellOutside => "an operation names a cell that the partition does not have",
            Refusal::NotLive => "the transaction's number is neither live nor above every accepted one",
            Refusal::NotFront => "the transaction is live, but it is not the front",
            Refusal::FrontFinished => "the front takes no fragment, since it is finished or has failed",
            Refusal::OtherCoordinator => "the front belongs to another coordinator, or the fragment is a single's",
            Refusal::TooManyLive => "64 transactions are live, and a new one must wait outside",
            Refusal::TooManyFragments => "the front has run 8 fragments and takes no more",
            Refusal::NotYetAccepted => "the decision is for a number above every accepted one",
            Refusal::NotFinished => "the front cannot be committed, since it is not finished",
            Refusal::Failed => "the front cannot be committed, since it failed",
        })
    }
}

impl Error for Refusal {}
