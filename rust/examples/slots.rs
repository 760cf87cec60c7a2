//! Works a model out in idle slots, a few pairs in each, and prints its rates.
//!
//!     cargo run --example slots -- [MODEL [BUDGET]]

use fenmantle::{Rate, Refusal};
use std::error::Error;

/// A whole run in slots: the value and how many slots it took.
fn in_slots(file: &[u8], lower: u64, budget: u64, area: &mut [u64]) -> Result<(u64, u64), Box<dyn Error>> {
    fenmantle::start(file, lower, area)?;
    let total = fenmantle::plan(file, lower)?.pairs;
    let mut progress = fenmantle::advance(file, lower, 0, 0, area)?;
    let mut slots = 0;
    while progress.done < total {
        // A board returns to its other work here, and comes back with nothing but `done` and the area.
        progress = fenmantle::advance(file, lower, progress.done, budget, area)?;
        slots += 1;
    }
    Ok((progress.value, slots))
}

fn main() -> Result<(), Box<dyn Error>> {
    let mut words = std::env::args().skip(1);
    let path = words.next().unwrap_or(concat!(env!("CARGO_MANIFEST_DIR"), "/../models/b.bin").into());
    let budget: u64 = words.next().map_or(Ok(4), |word| word.parse())?;
    if budget == 0 {
        return Err("a budget of 0 in every slot never gets done".into());
    }
    let file = std::fs::read(path)?;

    let plan = fenmantle::plan(&file, 0)?;
    println!("{} pairs in {} cells, {budget} pairs a slot", plan.pairs, plan.cells);
    // Where that is less than the plan's cells, the start refuses.
    let mut area = vec![0; fenmantle::ROOM.min(plan.cells as usize)];

    let (value, slots) = in_slots(&file, 0, budget, &mut area)?;
    println!("value {value} after {slots} slots");
    let mut rates = Vec::new();
    for chain in 1.. {
        let (numerator, slots) = match fenmantle::plan(&file, chain) {
            Err(Refusal::NoSuchChain) => break,
            Err(Refusal::WindowZero) => (0, 0),
            _ => in_slots(&file, chain, budget, &mut area)?,
        };
        println!("chain {chain} {numerator}/{value} after {slots} slots");
        rates.push(Rate { numerator, value });
    }
    let sheet = fenmantle::sheet(&file, &mut area)?;
    assert!(sheet.rates().eq(rates), "the sheet call has the same rates");
    println!("busiest {}", sheet.busiest);
    Ok(())
}
