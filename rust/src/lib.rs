//! Exact channel rates of closed queueing chains: safe calls into Fenmantle's proved board library.
//!
//! A model file goes in as bytes, a work area as `&mut [u64]`; the library keeps nothing between calls, allocates nothing and ends every
//! call with an answer. An area of [`ROOM`] cells is always enough; cells past those of the run are never written. A [`Refusal`] leaves
//! the area as it was, with two exceptions that [`advance`] and [`sheet`] name.
//!
//! The quick way is [`sheet`]. To work a model out in idle slots, take [`plan`] for the room and the number of pairs, [`start`] once, and
//! [`advance`] with whatever budget a slot has:
//!
//! ```
//! let file = std::fs::read("../models/b.bin")?;
//! let mut area = [0; fenmantle::ROOM];
//!
//! let plan = fenmantle::plan(&file, 0)?;
//! fenmantle::start(&file, 0, &mut area)?;
//! let (mut done, mut value) = (0, 0);
//! while done < plan.pairs {
//!     let progress = fenmantle::advance(&file, 0, done, 2, &mut area)?;
//!     (done, value) = (progress.done, progress.value);
//! }
//! assert_eq!(value, 14);
//! # Ok::<(), Box<dyn std::error::Error>>(())
//! ```

#![no_std]

pub mod raw;
mod refusal;

pub use refusal::Refusal;

use core::fmt;

/// The most cells that any accepted run has: an area of this many is always enough room.
pub const ROOM: usize = 8192;

/// What a run will take.
#[derive(Debug, Clone, Copy, PartialEq, Eq)]
pub struct Plan {
    /// How many cells of the area the run needs. May be above [`ROOM`]; every other call then refuses with [`Refusal::NoRoom`].
    pub cells: u64,
    /// How many pairs the run has; 0 for a model of one centre.
    pub pairs: u64,
}

/// How far a run has come.
#[derive(Debug, Clone, Copy, PartialEq, Eq)]
pub struct Progress {
    /// The pairs done by now, those of earlier calls included.
    pub done: u64,
    /// The run's value once `done` is the plan's `pairs`, 0 before that. The value of a run is at least 1.
    pub value: u64,
}

/// Why an advance ended without progress to tell, and where the run stands.
#[derive(Debug, Clone, Copy, PartialEq, Eq)]
pub struct Stopped {
    /// The refusal.
    pub refusal: Refusal,
    /// At [`Refusal::TooLarge`] the pairs done by now, those of earlier calls included; else 0.
    pub done: u64,
}

impl fmt::Display for Stopped {
    fn fmt(&self, f: &mut fmt::Formatter<'_>) -> fmt::Result {
        self.refusal.fmt(f)
    }
}

impl core::error::Error for Stopped {}

/// The rate of one channel, not reduced.
#[derive(Debug, Clone, Copy, PartialEq, Eq)]
pub struct Rate {
    /// The value with the channel's window one less; 0 where its window is 0.
    pub numerator: u64,
    /// The value of the model as it stands: at least 1.
    pub value: u64,
}

impl fmt::Display for Rate {
    fn fmt(&self, f: &mut fmt::Formatter<'_>) -> fmt::Result {
        write!(f, "{}/{}", self.numerator, self.value)
    }
}

/// The sheet of a model.
#[derive(Debug, Clone, Copy, PartialEq, Eq)]
pub struct Sheet {
    /// The value of the model as it stands in the file: at least 1.
    pub value: u64,
    /// The pairs of that model's run.
    pub pairs: u64,
    /// The cells of that model's run.
    pub cells: u64,
    /// The centre with the largest sum of loads; of several, the lowest number.
    pub busiest: u64,
    chains: usize,
    numerators: [u64; 8],
}

impl Sheet {
    /// The rate of each chain, chain 1 first.
    pub fn rates(&self) -> impl Iterator<Item = Rate> + '_ {
        self.numerators[..self.chains].iter().map(|&numerator| Rate { numerator, value: self.value })
    }
}

/// What a run will take, from routes, windows and tree alone. `lower` is the chain whose window counts one less, 0 for none.
///
/// Refuses with 1 to 11.
///
/// ```
/// use fenmantle::{plan, Plan, Refusal};
///
/// let file = std::fs::read("../models/b.bin").unwrap();
/// assert_eq!(plan(&file, 0), Ok(Plan { cells: 11, pairs: 6 }));
/// assert_eq!(plan(&file, 3), Err(Refusal::NoSuchChain));
/// assert_eq!(plan(&file[..37], 0), Err(Refusal::CutShort { place: 37 }));
/// ```
pub fn plan(file: &[u8], lower: u64) -> Result<Plan, Refusal> {
    // SAFETY: pointer and length are a slice's.
    let answer = unsafe { raw::fenmantle_plan(file.as_ptr(), file.len(), lower) };
    Refusal::of(answer.refusal, answer.place)?;
    Ok(Plan { cells: answer.cells, pairs: answer.pairs })
}

/// Begins a run: writes every leaf's weights to its cells and 0 to every join's. What the area held does not matter.
///
/// Refuses with 1 to 12, and with 14 exactly if a leaf's cell is 2^64 or more.
///
/// ```
/// let file = std::fs::read("../models/b.bin").unwrap();
/// let mut area = [7; 12];
/// assert_eq!(fenmantle::start(&file, 0, &mut area), Ok(()));
/// assert_eq!(area, [1, 2, 1, 4, 1, 3, 0, 0, 1, 1, 0, 7]);
/// ```
pub fn start(file: &[u8], lower: u64, area: &mut [u64]) -> Result<(), Refusal> {
    // SAFETY: pointers and lengths are those of slices, which do not overlap.
    let answer = unsafe { raw::fenmantle_start(file.as_ptr(), file.len(), lower, area.as_mut_ptr(), area.len()) };
    Refusal::of(answer.refusal, answer.place)
}

/// Spends a budget: adds the next pairs of the run's fixed order to the area, `budget` of them or all that are left.
///
/// Hand back `done` as the last call told it (0 after a start), with the same file, lowered chain and untouched area: then it makes no
/// difference how the budgets are cut up. A budget of 0 adds nothing, and is refused as any other.
///
/// Refuses with 1 to 14. At [`Refusal::TooLarge`] the pairs before the failing one are kept in the area, and [`Stopped::done`] counts them.
///
/// ```
/// use fenmantle::{advance, start, Progress};
///
/// let file = std::fs::read("../models/b.bin").unwrap();
/// let mut area = [0; 11];
/// start(&file, 0, &mut area).unwrap();
/// assert_eq!(advance(&file, 0, 0, 3, &mut area), Ok(Progress { done: 3, value: 0 }));
/// assert_eq!(area, [1, 2, 1, 4, 1, 3, 4, 6, 1, 1, 0]);
/// assert_eq!(advance(&file, 0, 3, 100, &mut area), Ok(Progress { done: 6, value: 14 }));
/// ```
pub fn advance(file: &[u8], lower: u64, done: u64, budget: u64, area: &mut [u64]) -> Result<Progress, Stopped> {
    // SAFETY: pointers and lengths are those of slices, which do not overlap.
    let answer = unsafe { raw::fenmantle_advance(file.as_ptr(), file.len(), lower, done, budget, area.as_mut_ptr(), area.len()) };
    Refusal::of(answer.refusal, answer.place).map_err(|refusal| Stopped { refusal, done: answer.done })?;
    Ok(Progress { done: answer.done, value: answer.value })
}

/// The whole sheet: the model's run, then one with each chain lowered. What the area held does not matter.
///
/// Refuses with 1 to 9, 12, 14 and 15. The model's cells are 0 afterwards, after [`Refusal::TooLarge`] and
/// [`Refusal::LoweredTooLarge`] too.
///
/// ```
/// let file = std::fs::read("../models/b.bin").unwrap();
/// let sheet = fenmantle::sheet(&file, &mut [0; fenmantle::ROOM]).unwrap();
/// assert_eq!((sheet.value, sheet.pairs, sheet.cells, sheet.busiest), (14, 6, 11, 1));
/// let rates: Vec<String> = sheet.rates().map(|rate| rate.to_string()).collect();
/// assert_eq!(rates, ["3/14", "4/14"]);
/// ```
pub fn sheet(file: &[u8], area: &mut [u64]) -> Result<Sheet, Refusal> {
    // SAFETY: pointers and lengths are those of slices, which do not overlap.
    let answer = unsafe { raw::fenmantle_sheet(file.as_ptr(), file.len(), area.as_mut_ptr(), area.len()) };
    Refusal::of(answer.refusal, answer.place)?;
    Ok(Sheet {
        value: answer.value,
        pairs: answer.pairs,
        cells: answer.cells,
        busiest: answer.busiest,
        chains: answer.chains as usize,
        numerators: answer.numerators,
    })
}

/// The tree part of a file, as a part of the caller's own bytes: from the first leaf up to but without the end record. It is empty
/// exactly where [`plan`] with no chain lowered refuses.
///
/// ```
/// let file = std::fs::read("../models/b.bin").unwrap();
/// assert_eq!(fenmantle::tree_part(&file), [4, 1, 4, 2, 5, 4, 3, 5]);
/// assert_eq!(fenmantle::tree_part(&file[1..]), []);
/// ```
pub fn tree_part(file: &[u8]) -> &[u8] {
    // SAFETY: pointer and length are a slice's.
    let answer = unsafe { raw::fenmantle_tree_part(file.as_ptr(), file.len()) };
    &file[answer.from as usize..][..answer.length as usize]
}
