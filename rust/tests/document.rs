//! The numbers that the scope document gives, as they stand there.

use fenmantle::{advance, plan, sheet, start, tree_part, Plan, Progress, Refusal, Stopped};

const B: [u8; 38] = [
    0x01, 0x03, 0x02, 0x02, 0x01, 0x01, 0x02, 0x02, 0x01, 0x03, 0x01, 0x01, 0x00, 0x01, 0x03, 0x01, 0x02, 0x00, 0x02, 0x03, 0x02, 0x01,
    0x00, 0x03, 0x03, 0x03, 0x02, 0x00, 0x01, 0x04, 0x01, 0x04, 0x02, 0x05, 0x04, 0x03, 0x05, 0x06,
];

/// Value, lowered values, pairs and cells, by the sheet and by runs.
fn told(file: &[u8]) -> (u64, Vec<u64>, u64, u64) {
    let mut area = [0; fenmantle::ROOM];
    let told = sheet(file, &mut area).unwrap();
    let numerators: Vec<u64> = told.rates().map(|rate| rate.numerator).collect();
    for (lower, value) in (0..).zip([told.value].iter().chain(&numerators)) {
        if plan(file, lower) == Err(Refusal::WindowZero) {
            assert_eq!(*value, 0);
            continue;
        }
        let pairs = plan(file, lower).unwrap().pairs;
        start(file, lower, &mut area).unwrap();
        assert_eq!(advance(file, lower, 0, u64::MAX, &mut area), Ok(Progress { done: pairs, value: *value }));
    }
    assert_eq!(plan(file, 0), Ok(Plan { cells: told.cells, pairs: told.pairs }));
    (told.value, numerators, told.pairs, told.cells)
}

/// One centre and one chain.
fn single(load: u16, window: u8) -> Vec<u8> {
    let [high, low] = load.to_be_bytes();
    vec![1, 1, 1, 2, 1, window, 3, 1, 1, high, low, 4, 1, 6]
}

/// Two centres and one chain that visits both.
fn double(loads: [u16; 2], window: u8) -> Vec<u8> {
    let [[a, b], [c, d]] = loads.map(u16::to_be_bytes);
    vec![1, 2, 1, 2, 1, window, 3, 1, 1, a, b, 3, 2, 1, c, d, 4, 1, 4, 2, 5, 6]
}

#[test]
fn b() {
    assert_eq!(told(&B), (14, vec![3, 4], 6, 11));
    let sheet = sheet(&B, &mut [0; 11]).unwrap();
    assert_eq!(sheet.busiest, 1);
    assert_eq!(tree_part(&B), &B[29..37]);
    assert_eq!(std::fs::read("../models/b.bin").unwrap(), B);
}

#[test]
fn b_with_another_tree() {
    let other = [&B[..29], &[4, 2, 4, 3, 5, 4, 1, 5, 6]].concat();
    assert_eq!(told(&other), (14, vec![3, 4], 8, 13));
}

#[test]
fn areas_of_b() {
    let after = |pairs: u64| {
        let mut area = [0; 11];
        start(&B, 0, &mut area).unwrap();
        advance(&B, 0, 0, pairs, &mut area).unwrap();
        area
    };
    assert_eq!(after(0), [1, 2, 1, 4, 1, 3, 0, 0, 1, 1, 0]);
    assert_eq!(after(1), [1, 2, 1, 4, 1, 3, 3, 0, 1, 1, 0]);
    assert_eq!(after(3), [1, 2, 1, 4, 1, 3, 4, 6, 1, 1, 0]);
    assert_eq!(after(6), [1, 2, 1, 4, 1, 3, 4, 10, 1, 1, 14]);
}

#[test]
fn small_models() {
    assert_eq!(told(&double([1, 2], 2)), (7, vec![3], 3, 7));
    assert_eq!(told(&[1, 1, 2, 2, 1, 2, 2, 2, 1, 3, 1, 1, 0, 2, 3, 1, 2, 0, 3, 4, 1, 6]), (36, vec![12, 4], 0, 1));
    assert_eq!(told(&single(9, 0)), (1, vec![0], 0, 1));
    assert_eq!(plan(&single(9, 0), 1), Err(Refusal::WindowZero));
    let one_visited = [1, 2, 1, 2, 1, 3, 3, 1, 1, 0, 5, 4, 1, 4, 2, 5, 6];
    assert_eq!(told(&one_visited), (125, vec![25], 1, 3));
}

#[test]
fn at_the_limit() {
    let mut area = [7; 20];
    assert_eq!(told(&single(65535, 4)).0, 18445618199572250625);
    assert_eq!(start(&single(65535, 5), 0, &mut area), Err(Refusal::TooLarge));
    assert_eq!(start(&single(256, 8), 0, &mut area), Err(Refusal::TooLarge));
    assert_eq!(area, [7; 20]);
    assert_eq!(start(&single(255, 8), 0, &mut area), Ok(()));
    assert_eq!(told(&double([65535, 1], 4)).0, 18445899665959157761);
    let both = double([65535, 65535], 4);
    start(&both, 0, &mut area).unwrap();
    assert_eq!(advance(&both, 0, 0, u64::MAX, &mut area), Err(Stopped { refusal: Refusal::TooLarge, done: 1 }));
    assert_eq!(sheet(&both, &mut area), Err(Refusal::TooLarge));
    assert_eq!(area, [[0; 11].as_slice(), &[7; 9]].concat()[..]);
}

#[test]
fn refusals() {
    assert_eq!(plan(&[], 0), Err(Refusal::CutShort { place: 0 }));
    assert_eq!(tree_part(&[]), []);
    assert_eq!(start(&B, 0, &mut [0; 10]), Err(Refusal::NoRoom));
    assert_eq!(start(&B, 0, &mut [0; 11]), Ok(()));
    let longer = [&B[..], &[6]].concat();
    assert_eq!(plan(&longer, 0), Err(Refusal::BytesAfterEnd { place: 38 }));
    assert_eq!(plan(&longer, 0).unwrap_err().to_string(), "refused 9 at 38");
    let mut twice = B;
    twice[32] = 1;
    assert_eq!(plan(&twice, 0), Err(Refusal::LeafTwice { place: 32 }));
    let open = [&B[..36], &[6]].concat();
    assert_eq!(plan(&open, 0), Err(Refusal::TreeUnfinished { place: 36 }));
    assert_eq!(tree_part(&open), []);
}
