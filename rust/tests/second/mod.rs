//! A second reading of the scope document, made for comparison: sets, lists and whole numbers, each sentence as it stands, and nothing of
//! the library's own methods. It is slow where the document is wordy.

use fenmantle::raw::{AdvanceAnswer, PlanAnswer, SheetAnswer, StartAnswer, TreePartAnswer};
use std::collections::{BTreeMap, BTreeSet};

/// Number and place.
pub type Refused = (u64, u64);

pub const LIMIT: u128 = 1 << 64;

#[derive(Clone)]
pub enum Tree {
    Leaf(u8),
    Join(Box<Tree>, Box<Tree>),
}

pub struct Model {
    pub centres: u8,
    pub windows: Vec<u64>,
    /// By centre and chain, both counted from 1.
    pub loads: BTreeMap<(u8, u8), u64>,
    pub tree: Tree,
    pub tree_part: (usize, usize),
}

// ---- the file

pub fn read(file: &[u8]) -> Result<Model, Refused> {
    let end = file.len() as u64;
    let mut at = 0;
    let mut size: Option<(u8, u8)> = None;
    let mut windows: Vec<u64> = vec![];
    let mut loads = BTreeMap::new();
    let mut first_leaf = None;
    let mut stack: Vec<Tree> = vec![];
    let mut placed = BTreeSet::new();
    loop {
        let due: &[u8] = match size {
            None => &[1],
            Some((_, chains)) if windows.len() < chains as usize => &[2],
            _ if first_leaf.is_none() => &[3, 4],
            _ => &[4, 5, 6],
        };
        let kind = *file.get(at).ok_or((1, end))?;
        if !due.contains(&kind) {
            return Err((2, at as u64));
        }
        let body_length = [2, 2, 4, 1, 0, 0][kind as usize - 1];
        let body = file.get(at + 1..at + 1 + body_length).ok_or((1, end))?;
        let field = |from: usize, good: bool| if good { Ok(()) } else { Err((3, (at + 1 + from) as u64)) };
        let (centres, chains) = size.unwrap_or((16, 8));
        match kind {
            1 => {
                field(0, (1..=16).contains(&body[0]))?;
                field(1, (1..=8).contains(&body[1]))?;
                size = Some((body[0], body[1]));
            }
            2 => {
                field(0, body[0] as usize == windows.len() + 1)?;
                field(1, body[1] <= 15)?;
                windows.push(body[1] as u64);
            }
            3 => {
                field(0, (1..=centres).contains(&body[0]))?;
                field(1, (1..=chains).contains(&body[1]))?;
                let load = u16::from_be_bytes([body[2], body[3]]);
                field(2, load >= 1)?;
                if loads.keys().any(|&earlier| earlier >= (body[0], body[1])) {
                    return Err((4, at as u64));
                }
                loads.insert((body[0], body[1]), load as u64);
            }
            4 => {
                field(0, (1..=centres).contains(&body[0]))?;
                if first_leaf.is_none() && (1..=chains).any(|chain| loads.keys().all(|&(_, k)| k != chain)) {
                    return Err((5, at as u64));
                }
                first_leaf.get_or_insert(at);
                if !placed.insert(body[0]) {
                    return Err((6, at as u64 + 1));
                }
                stack.push(Tree::Leaf(body[0]));
            }
            5 => {
                if stack.len() < 2 {
                    return Err((7, at as u64));
                }
                let right = stack.pop().unwrap();
                let left = stack.pop().unwrap();
                stack.push(Tree::Join(Box::new(left), Box::new(right)));
            }
            _ => {
                if stack.len() != 1 || placed.len() != centres as usize {
                    return Err((8, at as u64));
                }
                if at + 1 < file.len() {
                    return Err((9, at as u64 + 1));
                }
                let from = first_leaf.unwrap();
                return Ok(Model { centres, windows, loads, tree: stack.pop().unwrap(), tree_part: (from, at - from) });
            }
        }
        at += 1 + body_length;
    }
}

// ---- coverage, cells and pairs

#[derive(Clone, Copy, PartialEq, Eq)]
pub enum Coverage {
    Finished,
    Partial,
    Absent,
}

use Coverage::*;

pub struct Node {
    /// Of a leaf, its centre.
    pub centre: Option<u8>,
    /// Of a join, its children's places among the nodes.
    pub children: Option<(usize, usize)>,
    pub coverage: Vec<Coverage>,
    /// Where its cells begin in the area.
    pub base: u64,
    pub cells: u64,
    pub pairs: u64,
}

/// A model with the windows of one run, laid out.
pub struct Run<'m> {
    pub model: &'m Model,
    pub windows: Vec<u64>,
    pub nodes: Vec<Node>,
    pub cells: u64,
    pub pairs: u64,
}

impl Model {
    pub fn chains(&self) -> usize {
        self.windows.len()
    }

    pub fn route(&self, chain: usize) -> BTreeSet<u8> {
        self.loads.keys().filter(|&&(_, k)| k as usize == chain + 1).map(|&(c, _)| c).collect()
    }

    pub fn load(&self, centre: u8, chain: usize) -> Option<u64> {
        self.loads.get(&(centre, chain as u8 + 1)).copied()
    }

    pub fn lowered(&self, lower: u64) -> Result<Vec<u64>, Refused> {
        let mut windows = self.windows.clone();
        if lower > windows.len() as u64 {
            return Err((10, 0));
        }
        if lower > 0 {
            let window = &mut windows[lower as usize - 1];
            *window = window.checked_sub(1).ok_or((11, 0))?;
        }
        Ok(windows)
    }

    pub fn run(&self, windows: Vec<u64>) -> Run<'_> {
        let routes: Vec<_> = (0..self.chains()).map(|chain| self.route(chain)).collect();
        let mut run = Run { model: self, windows, nodes: vec![], cells: 0, pairs: 0 };
        run.lay(&self.tree, &routes);
        run.cells = run.nodes.iter().map(|node| node.cells).sum();
        run.pairs = run.nodes.iter().map(|node| node.pairs).sum();
        run
    }

    /// (centres - 1) times the product over all chains of (N+1)(N+2)/2
    pub fn plain_pairs(&self, windows: &[u64]) -> u64 {
        (self.centres as u64 - 1) * windows.iter().map(|n| (n + 1) * (n + 2) / 2).product::<u64>()
    }

    /// G(N) by its definition, over all states, or nothing where there are more than `most` of them.
    pub fn value_by_states(&self, windows: &[u64], most: u64) -> Option<u128> {
        let mut placings: Vec<Vec<BTreeMap<u8, u64>>> = vec![];
        let mut states = 1u64;
        for (chain, &window) in windows.iter().enumerate() {
            let route: Vec<u8> = self.route(chain).into_iter().collect();
            let ways = choose(window + route.len() as u64 - 1, window) as u64;
            states = states.checked_mul(ways).filter(|&states| states <= most)?;
            let ways = spread(window, route.len());
            placings.push(ways.into_iter().map(|ns| route.iter().copied().zip(ns).collect()).collect());
        }
        let mut total = 0;
        for mut state in 0..states {
            let chosen: Vec<&BTreeMap<u8, u64>> = placings
                .iter()
                .map(|ways| {
                    let way = state % ways.len() as u64;
                    state /= ways.len() as u64;
                    &ways[way as usize]
                })
                .collect();
            let product = (1..=self.centres).fold(1, |product, centre| {
                let messages: Vec<u64> = chosen.iter().map(|way| way.get(&centre).copied().unwrap_or(0)).collect();
                capped_mul(product, self.weight(centre, &messages))
            });
            total = capped(total + product);
        }
        Some(total)
    }

    /// n! divided by the product of the n_k!, times the product of load^n_k; 2^64 stands for all that is not below it.
    pub fn weight(&self, centre: u8, messages: &[u64]) -> u128 {
        let mut weight = 1;
        let mut left: u64 = messages.iter().sum();
        for (chain, &n) in messages.iter().enumerate() {
            weight = capped_mul(weight, choose(left, n));
            left -= n;
            for _ in 0..n {
                weight = capped_mul(weight, self.load(centre, chain).unwrap_or(0) as u128);
            }
        }
        weight
    }
}

fn capped(n: u128) -> u128 {
    n.min(LIMIT)
}

fn capped_mul(a: u128, b: u128) -> u128 {
    capped(a.checked_mul(b).unwrap_or(LIMIT))
}

/// By the multiplicative formula, which needs no table: with n up to 120 and k up to 15 nothing here reaches 2^128.
fn choose(n: u64, k: u64) -> u128 {
    (0..k).fold(1, |chosen, i| chosen * (n - i) as u128 / (i + 1) as u128)
}

/// All ways to place n messages on some places.
fn spread(n: u64, places: usize) -> Vec<Vec<u64>> {
    if places == 1 {
        return vec![vec![n]];
    }
    (0..=n).flat_map(|here| spread(n - here, places - 1).into_iter().map(move |rest| [vec![here], rest].concat())).collect()
}

impl Run<'_> {
    /// Appends the subtree's nodes in postorder; returns the centres under it.
    fn lay(&mut self, tree: &Tree, routes: &[BTreeSet<u8>]) -> BTreeSet<u8> {
        let (under, centre, children) = match tree {
            Tree::Leaf(centre) => (BTreeSet::from([*centre]), Some(*centre), None),
            Tree::Join(left, right) => {
                let under_left = self.lay(left, routes);
                let left = self.nodes.len() - 1;
                let under_right = self.lay(right, routes);
                (&under_left | &under_right, None, Some((left, self.nodes.len() - 1)))
            }
        };
        let coverage: Vec<Coverage> = routes
            .iter()
            .map(|route| {
                if route.is_subset(&under) {
                    Finished
                } else if route.is_disjoint(&under) {
                    Absent
                } else {
                    Partial
                }
            })
            .collect();
        let base = self.nodes.last().map_or(0, |before| before.base + before.cells);
        let mut cells = 1;
        let mut pairs = 1;
        for (chain, &window) in self.windows.iter().enumerate() {
            if coverage[chain] == Partial {
                cells *= window + 1;
            }
            if let Some((left, right)) = children {
                match (self.nodes[left].coverage[chain], self.nodes[right].coverage[chain]) {
                    (Partial, Partial) if coverage[chain] == Partial => pairs *= (window + 1) * (window + 2) / 2,
                    (Partial, _) | (_, Partial) => pairs *= window + 1,
                    _ => {}
                }
            }
        }
        let pairs = if children.is_some() { pairs } else { 0 };
        self.nodes.push(Node { centre, children, coverage, base, cells, pairs });
        under
    }

    /// All indices of a node in the order of its cells: partial chains ascend, the last runs fastest.
    fn indices(&self, node: &Node) -> Vec<Vec<u64>> {
        let mut all = vec![vec![]];
        for (coverage, &window) in node.coverage.iter().zip(&self.windows) {
            let values = match coverage {
                Finished => window..=window,
                Partial => 0..=window,
                Absent => 0..=0,
            };
            all = all.iter().flat_map(|index| values.clone().map(move |n| [index.as_slice(), &[n]].concat())).collect();
        }
        all
    }

    /// The cell of a node at an index, of which only the partial chains count.
    fn cell(&self, node: &Node, index: &[u64]) -> usize {
        let mut place = 0;
        for ((coverage, &window), n) in node.coverage.iter().zip(&self.windows).zip(index) {
            if *coverage == Partial {
                place = place * (window + 1) + n;
            }
        }
        (node.base + place) as usize
    }

    /// Calls `each` with left, right and result cell of the listed pairs from number `done` on, one by one, until it says stop.
    pub fn pairs_from(&self, done: u64, each: &mut dyn FnMut(usize, usize, usize) -> bool) {
        let mut skip = done;
        for node in &self.nodes {
            let Some((left, right)) = node.children else { continue };
            if skip >= node.pairs {
                skip -= node.pairs;
                continue;
            }
            let (left, right) = (&self.nodes[left], &self.nodes[right]);
            let shared: Vec<bool> = left.coverage.iter().zip(&right.coverage).map(|(l, r)| *l == Partial && *r == Partial).collect();
            for index in self.indices(node) {
                let result = self.cell(node, &index);
                let mut j: Vec<u64> = index.iter().zip(&shared).map(|(&i, &shared)| if shared { 0 } else { i }).collect();
                loop {
                    if skip > 0 {
                        skip -= 1;
                    } else {
                        let k: Vec<u64> = (0..index.len()).map(|c| if shared[c] { index[c] - j[c] } else { index[c] }).collect();
                        if !each(self.cell(left, &j), self.cell(right, &k), result) {
                            return;
                        }
                    }
                    let Some(next) = (0..index.len()).rev().find(|&c| shared[c] && j[c] < index[c]) else { break };
                    j[next] += 1;
                    for c in next + 1..index.len() {
                        if shared[c] {
                            j[c] = 0;
                        }
                    }
                }
            }
        }
    }

    fn room(&self, area: usize) -> Result<(), Refused> {
        if self.cells > 8192 || self.cells > area as u64 {
            return Err((12, 0));
        }
        Ok(())
    }

    fn start(&self, area: &mut [u64]) -> Result<(), Refused> {
        let mut contents = vec![];
        for node in &self.nodes {
            for index in self.indices(node) {
                let content = node.centre.map_or(0, |centre| self.model.weight(centre, &index));
                contents.push(u64::try_from(content).map_err(|_| (14, 0))?);
            }
        }
        area[..contents.len()].copy_from_slice(&contents);
        Ok(())
    }

    /// The number done, and whether a pair would have reached 2^64.
    fn advance(&self, mut done: u64, budget: u64, area: &mut [u64]) -> (u64, bool) {
        let mut left = budget;
        let mut over = false;
        self.pairs_from(done, &mut |l, r, result| {
            if left == 0 {
                return false;
            }
            let Some(sum) = area[l].checked_mul(area[r]).and_then(|product| product.checked_add(area[result])) else {
                over = true;
                return false;
            };
            area[result] = sum;
            left -= 1;
            done += 1;
            true
        });
        (done, over)
    }
}

// ---- the calls

pub fn plan(file: &[u8], lower: u64) -> PlanAnswer {
    let planned = || -> Result<PlanAnswer, Refused> {
        let model = read(file)?;
        let run = model.run(model.lowered(lower)?);
        Ok(PlanAnswer { cells: run.cells, pairs: run.pairs, ..Default::default() })
    };
    planned().unwrap_or_else(|(refusal, place)| PlanAnswer { refusal, place, ..Default::default() })
}

pub fn start(file: &[u8], lower: u64, area: &mut [u64]) -> StartAnswer {
    let started = |area: &mut [u64]| -> Result<StartAnswer, Refused> {
        let model = read(file)?;
        let run = model.run(model.lowered(lower)?);
        run.room(area.len())?;
        run.start(area)?;
        Ok(StartAnswer::default())
    };
    started(area).unwrap_or_else(|(refusal, place)| StartAnswer { refusal, place })
}

pub fn advance(file: &[u8], lower: u64, done: u64, budget: u64, area: &mut [u64]) -> AdvanceAnswer {
    let advanced = |area: &mut [u64]| -> Result<AdvanceAnswer, Refused> {
        let model = read(file)?;
        let run = model.run(model.lowered(lower)?);
        run.room(area.len())?;
        if done > run.pairs {
            return Err((13, 0));
        }
        let (done, over) = run.advance(done, budget, area);
        let value = if !over && done == run.pairs { area[run.cells as usize - 1] } else { 0 };
        Ok(AdvanceAnswer { refusal: if over { 14 } else { 0 }, place: 0, done, value })
    };
    advanced(area).unwrap_or_else(|(refusal, place)| AdvanceAnswer { refusal, place, ..Default::default() })
}

pub fn sheet(file: &[u8], area: &mut [u64]) -> SheetAnswer {
    let told = |area: &mut [u64]| -> Result<SheetAnswer, Refused> {
        let model = read(file)?;
        let full = model.run(model.windows.clone());
        full.room(area.len())?;
        area[..full.cells as usize].fill(0);
        let value_of = |run: &Run, number: u64| -> Result<u64, Refused> {
            let mut own = vec![0; run.cells as usize];
            run.start(&mut own).map_err(|_| (number, 0))?;
            match run.advance(0, u64::MAX, &mut own) {
                (_, true) => Err((number, 0)),
                _ => Ok(own[own.len() - 1]),
            }
        };
        let mut answer = SheetAnswer {
            value: value_of(&full, 14)?,
            pairs: full.pairs,
            cells: full.cells,
            chains: model.chains() as u64,
            ..Default::default()
        };
        for chain in 0..model.chains() {
            if model.windows[chain] > 0 {
                answer.numerators[chain] = value_of(&model.run(model.lowered(chain as u64 + 1)?), 15)?;
            }
        }
        let sum = |centre: u8| -> u64 { (0..model.chains()).filter_map(|chain| model.load(centre, chain)).sum() };
        let largest = (1..=model.centres).map(sum).max().unwrap();
        answer.busiest = (1..=model.centres).find(|&centre| sum(centre) == largest).unwrap() as u64;
        Ok(answer)
    };
    told(area).unwrap_or_else(|(refusal, place)| SheetAnswer { refusal, place, ..Default::default() })
}

pub fn tree_part(file: &[u8]) -> TreePartAnswer {
    read(file).map_or_else(
        |_| TreePartAnswer::default(),
        |model| TreePartAnswer { from: model.tree_part.0 as u64, length: model.tree_part.1 as u64 },
    )
}
