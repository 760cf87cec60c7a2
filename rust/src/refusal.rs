use core::fmt;

/// Why a call is refused: the fifteen numbers of the scope document by name. `place` is an offset into the file, counted from 0; the
/// refusals 10 to 15 have place 0.
///
/// Where several apply, the first is told: the file's from the left, then 10 to 15 in order.
#[derive(Debug, Clone, Copy, PartialEq, Eq, Hash)]
pub enum Refusal {
    /// 1: the bytes end before the due record does. Place: the file's length.
    CutShort { place: u64 },
    /// 2: a kind that is not due. Place: the kind byte.
    KindNotDue { place: u64 },
    /// 3: a field outside its range, or a window for another chain than the one that is due. Place: the first byte of the field.
    OutOfRange { place: u64 },
    /// 4: a load that does not come after the one before it, by centre and then by chain. Place: its kind byte.
    LoadOrder { place: u64 },
    /// 5: at the first leaf some chain has no centre. Place: that leaf's kind byte.
    NoCentre { place: u64 },
    /// 6: a leaf whose centre is in the tree already. Place: the centre's number.
    LeafTwice { place: u64 },
    /// 7: a join with fewer than two subtrees before it. Place: its kind byte.
    NothingToJoin { place: u64 },
    /// 8: at the end record there is not exactly one subtree, or a centre is missing. Place: its kind byte.
    TreeUnfinished { place: u64 },
    /// 9: there are bytes after the end record. Place: the first of them.
    BytesAfterEnd { place: u64 },
    /// 10: the chain to lower is above the number of chains.
    NoSuchChain,
    /// 11: the chain to lower has window 0.
    WindowZero,
    /// 12: the run's cells are more than 8192, or more than the area has.
    NoRoom,
    /// 13: the pairs done are above the run's pairs.
    DoneAboveTotal,
    /// 14: a cell would reach 2^64. In a whole run this comes exactly if the value is 2^64 or more, whatever the tree is.
    TooLarge,
    /// 15, of a sheet only: the value is below 2^64, but that of some lowered run is not.
    LoweredTooLarge,
}

use Refusal::*;

impl Refusal {
    /// The refusal's number in the scope document, 1 to 15.
    pub const fn number(self) -> u64 {
        match self {
            CutShort { .. } => 1,
            KindNotDue { .. } => 2,
            OutOfRange { .. } => 3,
            LoadOrder { .. } => 4,
            NoCentre { .. } => 5,
            LeafTwice { .. } => 6,
            NothingToJoin { .. } => 7,
            TreeUnfinished { .. } => 8,
            BytesAfterEnd { .. } => 9,
            NoSuchChain => 10,
            WindowZero => 11,
            NoRoom => 12,
            DoneAboveTotal => 13,
            TooLarge => 14,
            LoweredTooLarge => 15,
        }
    }

    /// Where in the file, counted from 0; 0 for 10 to 15.
    pub const fn place(self) -> u64 {
        match self {
            CutShort { place }
            | KindNotDue { place }
            | OutOfRange { place }
            | LoadOrder { place }
            | NoCentre { place }
            | LeafTwice { place }
            | NothingToJoin { place }
            | TreeUnfinished { place }
            | BytesAfterEnd { place } => place,
            NoSuchChain | WindowZero | NoRoom | DoneAboveTotal | TooLarge | LoweredTooLarge => 0,
        }
    }

    /// `Ok` for number 0.
    pub(crate) fn of(number: u64, place: u64) -> Result<(), Refusal> {
        Err(match number {
            0 => return Ok(()),
            1 => CutShort { place },
            2 => KindNotDue { place },
            3 => OutOfRange { place },
            4 => LoadOrder { place },
            5 => NoCentre { place },
            6 => LeafTwice { place },
            7 => NothingToJoin { place },
            8 => TreeUnfinished { place },
            9 => BytesAfterEnd { place },
            10 => NoSuchChain,
            11 => WindowZero,
            12 => NoRoom,
            13 => DoneAboveTotal,
            14 => TooLarge,
            15 => LoweredTooLarge,
            _ => unreachable!("the library refuses with 1 to 15"),
        })
    }
}

impl fmt::Display for Refusal {
    fn fmt(&self, f: &mut fmt::Formatter<'_>) -> fmt::Result {
        write!(f, "refused {} at {}", self.number(), self.place())
    }
}

impl core::error::Error for Refusal {}
