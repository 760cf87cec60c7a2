//! Inputs for the comparison: a small generator with a fixed seed, random model files, and damage to files.

/// SplitMix64. FENMANTLE_SEED chooses other inputs than the usual ones.
pub struct Chance(u64);

impl Chance {
    pub fn new(label: u64) -> Chance {
        let seed: u64 = std::env::var("FENMANTLE_SEED").map_or(1, |seed| seed.parse().expect("FENMANTLE_SEED is a number"));
        Chance(seed.wrapping_mul(0xd134_2543_de82_ef95) ^ label)
    }

    pub fn next(&mut self) -> u64 {
        self.0 = self.0.wrapping_add(0x9e37_79b9_7f4a_7c15);
        let z = (self.0 ^ (self.0 >> 30)).wrapping_mul(0xbf58_476d_1ce4_e5b9);
        let z = (z ^ (z >> 27)).wrapping_mul(0x94d0_49bb_1331_11eb);
        z ^ (z >> 31)
    }

    /// From a to b, both included.
    pub fn within(&mut self, a: u64, b: u64) -> u64 {
        match (b - a).checked_add(1) {
            Some(many) => a + self.next() % many,
            None => self.next(),
        }
    }

    pub fn one_in(&mut self, many: u64) -> bool {
        self.next() % many == 0
    }

    pub fn of<T: Copy>(&mut self, choices: &[T]) -> T {
        choices[self.within(0, choices.len() as u64 - 1) as usize]
    }

    pub fn shuffle<T>(&mut self, items: &mut [T]) {
        for i in (1..items.len()).rev() {
            items.swap(i, self.within(0, i as u64) as usize);
        }
    }
}

/// A valid model file: any number of centres and chains, routes from sparse to full, windows and loads from small to the ends.
pub fn model(chance: &mut Chance) -> Vec<u8> {
    let most_centres = chance.of(&[1, 2, 3, 5, 8, 16]);
    let most_chains = chance.of(&[1, 2, 3, 5, 8]);
    let (centres, chains) = (chance.within(1, most_centres) as u8, chance.within(1, most_chains) as u8);
    let most_window = chance.of(&[1, 2, 3, 6, 15]);
    let visits = chance.of(&[1, 2, 4]);

    let mut file = vec![1, centres, chains];
    let mut messages = 0;
    for chain in 1..=chains {
        // Beside the usual windows now and then one at an end.
        let window = if chance.one_in(8) { chance.of(&[0, 15]) } else { chance.within(0, most_window) };
        file.extend([2, chain, window as u8]);
        messages += window;
    }
    // Loads of about 2^(60 / messages) bring the value near 2^64, where many runs stop midway.
    let near = 2f64.powf(60.0 / messages.max(4) as f64) as u64;
    let most_load = chance.of(&[1, 3, 20, 255, 65535, near, near, near]);
    let sure: Vec<u8> = (0..chains).map(|_| chance.within(1, centres as u64) as u8).collect();
    for centre in 1..=centres {
        for chain in 1..=chains {
            if sure[chain as usize - 1] == centre || chance.one_in(visits) {
                let load = if chance.one_in(12) { chance.of(&[1, 256, 65535]) } else { chance.within(1, most_load) };
                file.extend([3, centre, chain, (load / 256) as u8, (load % 256) as u8]);
            }
        }
    }
    file.extend(tree(chance, centres));
    file.push(6);
    file
}

/// Every load of a valid file, set anew.
pub fn set_loads(file: &mut [u8], load: u16) {
    let mut at = 3 + 3 * file[2] as usize;
    while file[at] == 3 {
        file[at + 3..at + 5].copy_from_slice(&load.to_be_bytes());
        at += 5;
    }
}

/// Leaves in any order, joined anyhow: from one side, as late as possible, or at random.
pub fn tree(chance: &mut Chance, centres: u8) -> Vec<u8> {
    let mut leaves: Vec<u8> = (1..=centres).collect();
    if !chance.one_in(4) {
        chance.shuffle(&mut leaves);
    }
    let style = chance.within(0, 3);
    let mut records = vec![];
    let mut subtrees = 0;
    for leaf in leaves {
        records.extend([4, leaf]);
        subtrees += 1;
        while subtrees >= 2 && (style == 0 || (style >= 2 && chance.one_in(2))) {
            records.push(5);
            subtrees -= 1;
        }
    }
    records.extend(vec![5; subtrees - 1]);
    records
}

/// The same model with another tree.
pub fn replanted(chance: &mut Chance, file: &[u8], tree_part: (usize, usize)) -> Vec<u8> {
    let mut other = file[..tree_part.0].to_vec();
    other.extend(tree(chance, file[1]));
    other.push(6);
    other
}

fn telling_byte(chance: &mut Chance) -> u8 {
    if chance.one_in(3) {
        chance.next() as u8
    } else {
        chance.of(&[0, 1, 2, 3, 4, 5, 6, 7, 8, 9, 15, 16, 17, 255])
    }
}

/// Every truncation; at every place a byte changed, one put in and one taken out; bytes exchanged, runs repeated or dropped, bytes added.
pub fn damaged(chance: &mut Chance, file: &[u8]) -> Vec<Vec<u8>> {
    let mut all = vec![];
    for at in 0..file.len() {
        all.push(file[..at].to_vec());
        let mut one = file.to_vec();
        one[at] = match chance.within(0, 3) {
            0 => one[at] ^ (1 << chance.within(0, 7)),
            1 => one[at].wrapping_add(1),
            2 => one[at].wrapping_sub(1),
            _ => telling_byte(chance),
        };
        all.push(one);
        let mut one = file.to_vec();
        one.insert(at, telling_byte(chance));
        all.push(one);
        let mut one = file.to_vec();
        one.remove(at);
        all.push(one);
    }
    for _ in 0..file.len() / 4 {
        let mut one = file.to_vec();
        one.swap(chance.within(0, file.len() as u64 - 1) as usize, chance.within(0, file.len() as u64 - 1) as usize);
        all.push(one);
        let from = chance.within(0, file.len() as u64 - 1) as usize;
        let to = (from + chance.within(1, 6) as usize).min(file.len());
        all.push([&file[..to], &file[from..]].concat());
        all.push([&file[..from], &file[to..]].concat());
    }
    for more in [1, 2, 5, 800] {
        all.push([file, &(0..more).map(|_| telling_byte(chance)).collect::<Vec<u8>>()].concat());
    }
    all
}

/// Bytes that are no model, though their records may be.
pub fn noise(chance: &mut Chance) -> Vec<u8> {
    let mut file = vec![];
    let length = chance.of(&[0, 1, 3, 10, 60, 800]);
    while file.len() < chance.within(0, length) as usize {
        if chance.one_in(3) {
            file.push(telling_byte(chance));
        } else {
            let kind = chance.within(1, 6) as u8;
            file.push(kind);
            file.extend((0..[2, 2, 4, 1, 0, 0][kind as usize - 1]).map(|_| chance.within(0, 4) as u8));
        }
    }
    file
}
