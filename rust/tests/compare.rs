//! The library held against the second reading, every field of every answer and every cell of the area, over many inputs.

mod inputs;
mod second;

use fenmantle::raw::{self, AdvanceAnswer, PlanAnswer, SheetAnswer, StartAnswer, TreePartAnswer};
use fenmantle::{Progress, Refusal};
use inputs::{damaged, model, noise, replanted, Chance};
use second::{read, LIMIT};

const B: &[u8] = include_bytes!("../../models/b.bin");

/// Cells before and after the area that no call may touch.
const AROUND: usize = 3;

fn hex(file: &[u8]) -> String {
    file.iter().map(|byte| format!("{byte:02x} ")).collect()
}

/// An area of `len` cells, cells around it included.
fn contents(chance: &mut Chance, len: usize) -> Vec<u64> {
    let style = chance.within(0, 4);
    (0..len + 2 * AROUND)
        .map(|_| match style {
            0 => 0,
            1 => chance.next(),
            2 => chance.within(0, 9),
            3 => chance.within(0, 1 << 33),
            _ => chance.of(&[0, 1, 2, u64::MAX, u64::MAX - 1, 1 << 32, 1 << 63]),
        })
        .collect()
}

// Each call, the library's and the second reading's: same answer, same cells, nothing around the area touched, and the safe call says the same.

fn plan(file: &[u8], lower: u64) -> PlanAnswer {
    let told = unsafe { raw::fenmantle_plan(file.as_ptr(), file.len(), lower) };
    assert_eq!(told, second::plan(file, lower), "plan, lower {lower}, {}", hex(file));
    let safe = match fenmantle::plan(file, lower) {
        Ok(plan) => PlanAnswer { cells: plan.cells, pairs: plan.pairs, ..Default::default() },
        Err(refusal) => PlanAnswer { refusal: refusal.number(), place: refusal.place(), ..Default::default() },
    };
    assert_eq!(told, safe);
    told
}

fn same_cells(ours: &[u64], theirs: &[u64], what: &str, file: &[u8]) {
    if let Some(at) = (0..ours.len()).find(|&at| ours[at] != theirs[at]) {
        panic!("{what}: cell {} is {}, due is {}, {}", at as i64 - AROUND as i64, ours[at], theirs[at], hex(file));
    }
}

fn start(file: &[u8], lower: u64, area: &mut [u64]) -> StartAnswer {
    let inner = AROUND..area.len() - AROUND;
    let what = format!("start, lower {lower}, {} cells", inner.len());
    let (mut due, mut safe) = (area.to_vec(), area.to_vec());
    let part = &mut area[inner.clone()];
    let told = unsafe { raw::fenmantle_start(file.as_ptr(), file.len(), lower, part.as_mut_ptr(), part.len()) };
    assert_eq!(told, second::start(file, lower, &mut due[inner.clone()]), "{what}, {}", hex(file));
    same_cells(area, &due, &what, file);
    let refused = fenmantle::start(file, lower, &mut safe[inner]).err();
    assert_eq!((told.refusal, told.place), refused.map_or((0, 0), |refusal| (refusal.number(), refusal.place())));
    same_cells(&safe, &due, &what, file);
    told
}

fn advance(file: &[u8], lower: u64, done: u64, budget: u64, area: &mut [u64]) -> AdvanceAnswer {
    let inner = AROUND..area.len() - AROUND;
    let what = format!("advance, lower {lower}, {done} done, budget {budget}, {} cells", inner.len());
    let (mut due, mut safe) = (area.to_vec(), area.to_vec());
    let part = &mut area[inner.clone()];
    let told = unsafe { raw::fenmantle_advance(file.as_ptr(), file.len(), lower, done, budget, part.as_mut_ptr(), part.len()) };
    assert_eq!(told, second::advance(file, lower, done, budget, &mut due[inner.clone()]), "{what}, {}", hex(file));
    same_cells(area, &due, &what, file);
    let safely = match fenmantle::advance(file, lower, done, budget, &mut safe[inner]) {
        Ok(Progress { done, value }) => AdvanceAnswer { refusal: 0, place: 0, done, value },
        Err(stopped) => AdvanceAnswer { refusal: stopped.refusal.number(), place: stopped.refusal.place(), done: stopped.done, value: 0 },
    };
    assert_eq!(told, safely);
    same_cells(&safe, &due, &what, file);
    told
}

fn sheet(file: &[u8], area: &mut [u64]) -> SheetAnswer {
    let inner = AROUND..area.len() - AROUND;
    let what = format!("sheet, {} cells", inner.len());
    let (mut due, mut safe) = (area.to_vec(), area.to_vec());
    let part = &mut area[inner.clone()];
    let told = unsafe { raw::fenmantle_sheet(file.as_ptr(), file.len(), part.as_mut_ptr(), part.len()) };
    assert_eq!(told, second::sheet(file, &mut due[inner.clone()]), "{what}, {}", hex(file));
    same_cells(area, &due, &what, file);
    match fenmantle::sheet(file, &mut safe[inner]) {
        Ok(sheet) => {
            assert_eq!((0, told.value, told.pairs, told.cells), (told.refusal, sheet.value, sheet.pairs, sheet.cells));
            assert_eq!(told.busiest, sheet.busiest);
            assert!(sheet.rates().map(|rate| rate.numerator).eq(told.numerators[..told.chains as usize].iter().copied()));
        }
        Err(refusal) => assert_eq!((told.refusal, told.place), (refusal.number(), refusal.place())),
    }
    same_cells(&safe, &due, &what, file);
    told
}

fn tree_part(file: &[u8]) -> TreePartAnswer {
    let told = unsafe { raw::fenmantle_tree_part(file.as_ptr(), file.len()) };
    assert_eq!(told, second::tree_part(file), "tree part, {}", hex(file));
    let part = fenmantle::tree_part(file);
    assert_eq!(part.len() as u64, told.length);
    if told.length > 0 {
        assert_eq!(part.as_ptr(), file[told.from as usize..].as_ptr(), "the caller's own bytes");
    }
    told
}

/// How often each call gave each number.
#[derive(Default)]
struct Seen {
    plan: [u64; 16],
    start: [u64; 16],
    advance: [u64; 16],
    sheet: [u64; 16],
}

impl Seen {
    fn all(counts: &[u64; 16], numbers: impl IntoIterator<Item = usize>) {
        for number in numbers {
            assert!(counts[number] > 0, "the inputs never led to {number}");
        }
    }
}

fn any_lower(chance: &mut Chance) -> u64 {
    match chance.within(0, 9) {
        0..=4 => 0,
        5..=7 => chance.within(1, 9),
        _ => chance.of(&[8, 9, 255, 256, 257, 1 << 32, (1 << 32) + 1, u64::MAX]),
    }
}

/// All five calls on one file, with numbers and areas of every kind.
fn hold(chance: &mut Chance, file: &[u8], seen: &mut Seen) {
    tree_part(file);
    let lower = any_lower(chance);
    let planned = plan(file, lower);
    seen.plan[planned.refusal as usize] += 1;

    let near = planned.cells.min(9000);
    let any_len = |chance: &mut Chance| match chance.within(0, 9) {
        0..=3 => near as usize,
        4 => near.saturating_sub(1) as usize,
        5 => near as usize + 1,
        6 => near as usize + chance.within(0, 50) as usize,
        7 => chance.within(0, near) as usize,
        8 => 0,
        _ => chance.of(&[1, 8191, 8192, 8193, 10000]),
    };
    let mut area = {
        let len = any_len(chance);
        contents(chance, len)
    };
    let begun = start(file, lower, &mut area).refusal;
    seen.start[begun as usize] += 1;
    if begun != 0 || chance.one_in(3) {
        let len = any_len(chance);
        area = contents(chance, len);
    }
    for _ in 0..2 {
        let done = match chance.within(0, 9) {
            0..=2 => 0,
            3..=5 => chance.within(0, planned.pairs),
            6 => planned.pairs,
            7 => planned.pairs + 1,
            8 => planned.pairs.saturating_sub(1),
            _ => chance.of(&[u64::MAX, 1 << 32, 1 << 63, 8192]),
        };
        let budget = match chance.within(0, 9) {
            0..=1 => 0,
            2..=3 => chance.within(1, 3),
            4..=5 => chance.within(0, planned.pairs),
            6 => planned.pairs.saturating_sub(done),
            7 => u64::MAX - done.min(planned.pairs),
            _ => chance.of(&[u64::MAX, u64::MAX - 1, 1 << 32, 1 << 63]),
        };
        let told = advance(file, lower, done, budget, &mut area);
        seen.advance[told.refusal as usize] += 1;
    }
    let len = any_len(chance);
    let mut area = contents(chance, len);
    seen.sheet[sheet(file, &mut area).refusal as usize] += 1;
}

/// A valid model whose full run has at most so many cells and pairs.
fn model_within(chance: &mut Chance, cells: u64, pairs: u64) -> Vec<u8> {
    loop {
        let file = model(chance);
        let planned = second::plan(&file, 0);
        if planned.cells <= cells && planned.pairs <= pairs {
            return file;
        }
    }
}

#[test]
fn b_with_every_byte_changed_put_in_and_cut() {
    let mut chance = Chance::new(1);
    let mut seen = Seen::default();
    for at in 0..=B.len() {
        hold(&mut chance, &B[..at], &mut seen);
        for byte in 0..=255 {
            let mut file = B.to_vec();
            file.insert(at, byte);
            hold(&mut chance, &file, &mut seen);
            if at < B.len() {
                file.remove(at + 1);
                hold(&mut chance, &file, &mut seen);
            }
        }
    }
    Seen::all(&seen.plan, 0..=10);
}

/// Where several refusals apply to one record, the first in order is told.
#[test]
fn many_faults_in_one_record() {
    let mut chance = Chance::new(10);
    let mut seen = Seen::default();
    // B, and B with no centre for chain 2.
    let bare = [&B[..14], &B[19..24], &B[29..]].concat();
    for file in [B, &bare] {
        let mut at = 0;
        while at < file.len() {
            let body = [2, 2, 4, 1, 0, 0][file[at] as usize - 1];
            let telling: &[u8] = if body == 4 { &[0, 1, 2, 3, 255] } else { &[0, 1, 2, 3, 8, 9, 15, 16, 17, 255] };
            for mut choice in 0..6 * telling.len().pow(body as u32) {
                let mut other = file.to_vec();
                other[at] = (choice % 6) as u8 + 1;
                choice /= 6;
                for byte in &mut other[at + 1..at + 1 + body] {
                    *byte = telling[choice % telling.len()];
                    choice /= telling.len();
                }
                if chance.one_in(4) {
                    other.truncate(at + chance.within(0, body as u64 + 1) as usize);
                }
                hold(&mut chance, &other, &mut seen);
            }
            at += 1 + body;
        }
    }
    Seen::all(&seen.plan, 0..=8);
}

#[test]
fn damaged_models() {
    let mut chance = Chance::new(2);
    let mut seen = Seen::default();
    for _ in 0..400 {
        let file = model_within(&mut chance, 300, 1000);
        for file in damaged(&mut chance, &file) {
            hold(&mut chance, &file, &mut seen);
        }
    }
    Seen::all(&seen.plan, 0..=11);
}

#[test]
fn noise_of_all_lengths() {
    let mut chance = Chance::new(3);
    let mut seen = Seen::default();
    for _ in 0..30_000 {
        let file = noise(&mut chance);
        hold(&mut chance, &file, &mut seen);
    }
    Seen::all(&seen.plan, 1..=3);
}

#[test]
fn valid_models_in_all_areas_with_all_numbers() {
    let mut chance = Chance::new(4);
    let mut seen = Seen::default();
    for _ in 0..5000 {
        let file = model_within(&mut chance, u64::MAX, 20_000);
        for _ in 0..4 {
            hold(&mut chance, &file, &mut seen);
        }
    }
    // 15 never comes: a lowered value is at most the full one.
    Seen::all(&seen.plan, [0, 10, 11]);
    Seen::all(&seen.start, [0, 10, 11, 12, 14]);
    Seen::all(&seen.advance, [0, 10, 11, 12, 13, 14]);
    Seen::all(&seen.sheet, [0, 12, 14]);
}

#[test]
fn models_of_many_cells_and_pairs() {
    let mut chance = Chance::new(5);
    let mut seen = Seen::default();
    let (mut held, mut without_room) = (0, 0);
    while held < 16 || without_room < 16 {
        let mut file = model(&mut chance);
        let planned = second::plan(&file, 0);
        if planned.cells > 8192 && without_room < 16 {
            assert_eq!(start(&file, 0, &mut contents(&mut chance, 20_000)).refusal, 12);
            assert_eq!(sheet(&file, &mut contents(&mut chance, 20_000)).refusal, 12);
            without_room += 1;
        } else if (2000..=8192).contains(&planned.cells) && (20_000..=300_000).contains(&planned.pairs) && held < 16 {
            hold(&mut chance, &file, &mut seen);
            // With so many messages most values are too large, unless loads are small.
            inputs::set_loads(&mut file, 1);
            hold(&mut chance, &file, &mut seen);
            sheet(&file, &mut contents(&mut chance, 8192));
            held += 1;
        }
    }
}

#[test]
fn budgets_in_slots_come_to_one_budget() {
    let mut chance = Chance::new(6);
    let (mut finished, mut stopped) = (0, 0);
    while finished < 400 || stopped < 80 {
        let file = model_within(&mut chance, 2000, 3000);
        let lower = if chance.one_in(2) { 0 } else { chance.within(1, file[2] as u64) };
        let total = plan(&file, lower);
        let mut area = contents(&mut chance, total.cells as usize + 2);
        if start(&file, lower, &mut area).refusal != 0 {
            continue;
        }
        let begun = area.clone();
        let most = chance.of(&[1, 2, 10, 100, 4000]);
        let mut last = AdvanceAnswer::default();
        let mut spent = 0;
        loop {
            let budget = chance.within(0, most);
            spent += budget;
            last = advance(&file, lower, last.done, budget, &mut area);

            let mut at_once = begun.clone();
            let inner = AROUND..begun.len() - AROUND;
            let one = fenmantle::advance(&file, lower, 0, spent, &mut at_once[inner]);
            same_cells(&area, &at_once, "one budget for all slots", &file);
            match one {
                Ok(one) => assert_eq!((last.refusal, last.done, last.value), (0, one.done, one.value)),
                Err(one) => assert_eq!((last.refusal, last.done, Refusal::TooLarge), (14, one.done, one.refusal)),
            }
            if last.refusal == 14 {
                stopped += 1;
                // A stopped run stays where it is, with whatever budget.
                let again = advance(&file, lower, last.done, chance.within(1, 100), &mut area);
                assert_eq!(again, last);
                break;
            }
            assert_eq!(last.done, spent.min(total.pairs));
            if last.done == total.pairs {
                assert_eq!(last.value, area[AROUND + total.cells as usize - 1]);
                assert_eq!(advance(&file, lower, last.done, chance.within(0, 100), &mut area), last);
                finished += 1;
                break;
            }
        }
    }
}

#[test]
fn values_are_sums_over_states_for_every_tree() {
    let mut chance = Chance::new(7);
    let (mut exact, mut too_large) = (0, 0);
    while exact < 2000 || too_large < 200 {
        let file = model_within(&mut chance, 8192, 20_000);
        let model = read(&file).ok().unwrap();
        let Some(value) = model.value_by_states(&model.windows, 3000) else { continue };
        for _ in 0..3 {
            let file = replanted(&mut chance, &file, model.tree_part);
            let mut area = contents(&mut chance, 8192);
            let planned = plan(&file, 0);
            let told = fenmantle::sheet(&file, &mut area[AROUND..8192 + AROUND]);
            if planned.cells > 8192 {
                assert_eq!(told, Err(Refusal::NoRoom));
            } else if value >= LIMIT {
                assert_eq!(told, Err(Refusal::TooLarge));
                too_large += 1;
            } else {
                let told = told.unwrap();
                assert_eq!((told.value as u128, told.pairs, told.cells), (value, planned.pairs, planned.cells));
                for (chain, rate) in told.rates().enumerate() {
                    let lowered = model.lowered(chain as u64 + 1);
                    let due = lowered.map_or(0, |windows| model.value_by_states(&windows, 3000).unwrap());
                    assert_eq!((rate.numerator as u128, rate.value as u128), (due, value));
                    assert!(due <= value, "so that 15 never comes");
                }
                exact += 1;
            }
        }
    }
}

#[test]
fn pairs_are_as_many_as_listed_and_never_above_the_plain_method() {
    let mut chance = Chance::new(8);
    for _ in 0..2000 {
        let file = model(&mut chance);
        let model = read(&file).ok().unwrap();
        for lower in 0..=model.chains() as u64 {
            let planned = plan(&file, lower);
            let Ok(windows) = model.lowered(lower) else { continue };
            assert!(planned.pairs <= model.plain_pairs(&windows) && planned.pairs < 1 << 63);
            if planned.cells <= 2000 && planned.pairs <= 10_000 {
                let mut listed = 0;
                model.run(windows).pairs_from(0, &mut |_, _, _| {
                    listed += 1;
                    true
                });
                assert_eq!(planned.pairs, listed);
            }
        }
    }
}

/// 3 chains between centres 1 and 2, load 1 everywhere.
fn between(windows: [u8; 3], centres: u8, tree: &[u8]) -> Vec<u8> {
    let mut file = vec![1, centres, 3];
    file.extend((1..).zip(windows).flat_map(|(chain, window)| [2, chain, window]));
    file.extend((1..=2).flat_map(|centre| (1..=3).flat_map(move |chain| [3, centre, chain, 0, 1])));
    [&file, tree, &[6]].concat()
}

#[test]
fn exactly_8192_cells_and_one_more() {
    let mut chance = Chance::new(11);
    // 13 * 14 * 15 = 2730 cells at centre 1, at its join with centre 3 and at centre 2; 1 at centre 3 and at the root.
    let full = between([12, 13, 14], 3, &[4, 1, 4, 3, 5, 4, 2, 5]);
    assert_eq!(plan(&full, 0), PlanAnswer { cells: 8192, pairs: 2 * 2730, ..Default::default() });
    for (len, refusal) in [(8191, 12), (8192, 0), (8193, 0)] {
        assert_eq!(start(&full, 0, &mut contents(&mut chance, len)).refusal, refusal);
        assert_eq!(advance(&full, 0, 0, 9, &mut vec![1; len + 2 * AROUND]).refusal, refusal);
        assert_eq!(sheet(&full, &mut contents(&mut chance, len)).refusal, refusal);
    }
    // The coefficient of x^12 y^13 z^14 in (1 - x - y - z)^-2.
    let (choose_39_12, choose_27_13) = (3_910_797_436, 20_058_300);
    assert_eq!(fenmantle::sheet(&full, &mut [0; fenmantle::ROOM]).unwrap().value, 40 * choose_39_12 * choose_27_13);

    // 16 * 16 * 16 cells at each centre and 1 at the root; in lowered runs fewer.
    let over = between([15, 15, 15], 2, &[4, 1, 4, 2, 5]);
    assert_eq!(plan(&over, 0), PlanAnswer { cells: 8193, pairs: 4096, ..Default::default() });
    for (lower, refusal) in [(0, 12), (1, 0), (2, 0), (3, 0)] {
        assert_eq!(start(&over, lower, &mut contents(&mut chance, 9000)).refusal, refusal);
        assert_eq!(advance(&over, lower, 0, 9, &mut vec![1; 9000]).refusal, refusal);
    }
    assert_eq!(sheet(&over, &mut contents(&mut chance, 9000)).refusal, 12);
}

/// 16 centres, all visited by all of 8 chains.
fn full_model(window: u8) -> Vec<u8> {
    let mut file = vec![1, 16, 8];
    file.extend((1..=8).flat_map(|chain| [2, chain, window]));
    file.extend((1..=16).flat_map(|centre| (1..=8).flat_map(move |chain| [3, centre, chain, 255, 255])));
    file.extend((1..=16).flat_map(|centre| [4, centre]));
    file.extend([5; 15]);
    file.push(6);
    file
}

#[test]
fn the_longest_file_and_longer_ones() {
    let mut chance = Chance::new(9);
    let mut seen = Seen::default();
    let longest = full_model(0);
    assert_eq!(longest.len(), 715);
    assert_eq!(plan(&longest, 0), PlanAnswer { cells: 31, pairs: 15, ..Default::default() });
    hold(&mut chance, &longest, &mut seen);
    // The largest plan: 15 joins, 14 of which leave every chain partial.
    let planned = plan(&full_model(15), 0);
    assert_eq!(planned.pairs, 14 * 136u64.pow(8) + 16u64.pow(8));
    for file in damaged(&mut chance, &longest) {
        hold(&mut chance, &file, &mut seen);
        if file.len() > 716 {
            // The first 716 bytes decide.
            let mut other = file[..716].to_vec();
            other.resize(chance.within(716, 3000) as usize, chance.next() as u8);
            assert_eq!(plan(&file, 0), plan(&other, 0));
        }
    }
    for more in [1, 2, 100, 100_000] {
        let file = [&longest[..], &vec![6; more]].concat();
        assert_eq!(fenmantle::plan(&file, 0), Err(Refusal::BytesAfterEnd { place: 715 }));
        hold(&mut chance, &file, &mut seen);
    }
}
