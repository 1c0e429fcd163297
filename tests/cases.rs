//! The inputs of the comparer, group by group. All random numbers come from one generator, so the order here is part of the inputs.

use crate::inputs::{self, pairs, Input, Random};
use crate::molecules::{molecule, molecules, KINDS};
use crate::regular::{complete, cube, path, regular, ring, wheel};
use std::iter::repeat_n;

/// Which rooms for rows an input is called with.
#[derive(Clone, Copy, PartialEq)]
pub enum Rooms {
    /// Around the need.
    Around,
    /// Every one from nothing to somewhat more than the need.
    All,
}

/// An input and how it is called.
pub struct Case {
    /// The place of its group in `Cases::groups`.
    pub group: usize,
    /// What is lent.
    pub input: Input,
    /// The rooms to call it with.
    pub rooms: Rooms,
}

/// All cases.
#[derive(Default)]
pub struct Cases {
    /// The names of the groups.
    pub groups: Vec<&'static str>,
    /// The cases, group by group.
    pub list: Vec<Case>,
}

impl Cases {
    fn add(&mut self, name: &'static str, rooms: Rooms, list: Vec<Input>) {
        let group = self.groups.len();
        self.groups.push(name);
        self.list.extend(list.into_iter().map(|input| Case { group, input, rooms }));
    }

    /// All groups of inputs, in the order in which they are taken up.
    pub fn new() -> Cases {
        let mut cases = Cases::default();
        let mut random = Random(1);
        let bench: Vec<Input> = bench_set().into_iter().map(|(input, _)| input).collect();
        let (regular, molecules) = (regular(), molecules());
        cases.add("bench set, all buffer sizes", Rooms::All, bench.clone());
        cases.add("all graphs to 4 atoms, all buffer sizes", Rooms::All, (1..=4).flat_map(all_graphs).collect());
        cases.add("all graphs on 5 atoms", Rooms::Around, renumbered(&all_graphs(5), 1, &mut random));
        cases.add("regular compounds and cages", Rooms::Around, [regular.clone(), renumbered(&regular, 2, &mut random)].concat());
        cases.add("well-known molecules", Rooms::Around, [molecules.clone(), renumbered(&molecules, 4, &mut random)].concat());
        cases.add("molecule-like", Rooms::Around, molecule_like(&mut random));
        cases.add("random, sparse", Rooms::Around, sparse(&mut random));
        cases.add("random, dense", Rooms::Around, dense(&mut random));
        cases.add("at the limits", Rooms::Around, limits(&mut random));
        let damaged = damaged_ones(&mut random, [&bench, &molecules, &regular]);
        cases.add("damaged", Rooms::Around, [damaged, random_bytes(&mut random)].concat());
        // The most inputs by far come last, so that a run that is cut short has seen all other groups.
        cases.add("all graphs on 6 atoms", Rooms::Around, all_graphs(6));
        cases
    }
}

/// The bench set A to L, with what the scope document says of each: families, classes, total.
pub fn bench_set() -> Vec<(Input, [u64; 3])> {
    let adamantane = [(0, 4), (4, 1), (0, 5), (5, 2), (0, 6), (6, 3), (1, 7), (7, 2), (1, 8), (8, 3), (2, 9), (9, 3)];
    let two_squares = [(1, 2), (1, 3), (2, 4), (3, 4), (4, 0), (0, 5), (5, 6), (5, 7), (6, 8), (7, 8), (8, 9), (9, 1)];
    let naphthalene = [ring(10), vec![(0, 5)]].concat();
    vec![
        (Input::new("A", 1, &[]), [0, 0, 0]),
        (Input::new("B", 3, &[(0, 1), (1, 2), (0, 2)]), [1, 1, 3]),
        (Input::new("C", 4, &ring(4)), [1, 1, 4]),
        (Input::new("D", 4, &complete(4)), [4, 1, 9]),
        (Input::new("E", 5, &complete(5)), [10, 1, 18]),
        (Input::new("F", 8, &[(0, 2), (2, 3), (3, 1), (0, 4), (4, 5), (5, 1), (0, 6), (6, 7), (7, 1)]), [3, 1, 12]),
        (Input::new("G", 8, &cube(3)), [6, 1, 20]),
        (Input::new("H", 5, &wheel(4)), [4, 4, 12]),
        (Input::new("I", 5, &[(0, 1), (1, 2), (2, 0), (2, 3), (3, 4), (4, 2)]), [2, 2, 6]),
        (Input::new("J", 10, &naphthalene), [2, 2, 12]),
        (Input::new("K", 10, &two_squares), [3, 3, 16]),
        (Input::new("L", 10, &adamantane), [4, 1, 18]),
    ]
}

/// All labelled graphs on n atoms.
fn all_graphs(n: usize) -> Vec<Input> {
    let every = complete(n);
    let graph = |set: usize| {
        let bonds: Vec<(usize, usize)> = (0..every.len()).filter(|k| set >> k & 1 == 1).map(|k| every[k]).collect();
        Input::new(format!("graph {} of {} atoms", set, n), n, &bonds)
    };
    (0..1usize << every.len()).map(graph).collect()
}

/// The inputs of a list numbered anew, the whole list so many times.
fn renumbered(list: &[Input], times: usize, random: &mut Random) -> Vec<Input> {
    repeat_n(list, times).flatten().map(|input| input.renumbered(random)).collect()
}

fn molecule_like(random: &mut Random) -> Vec<Input> {
    let one = |i: usize| {
        let atoms = random.within(6, 64);
        molecule(random, KINDS[i % KINDS.len()], atoms).renumbered(random)
    };
    (0..5000).map(one).collect()
}

fn sparse(random: &mut Random) -> Vec<Input> {
    let one = |_| {
        let n = random.within(7, 64);
        let m = n - 1 + random.below(9);
        inputs::random(random, n, m)
    };
    (0..4000).map(one).collect()
}

fn dense(random: &mut Random) -> Vec<Input> {
    let one = |_| {
        let n = random.within(7, 20);
        let m = random.within(n, 96);
        inputs::random(random, n, m)
    };
    (0..3000).map(one).collect()
}

// The limits

/// The table's limits, each just kept and just passed, alone and together.
fn limits(random: &mut Random) -> Vec<Input> {
    [atoms_at_limit(), bytes_at_limit(), both_at_limit(random), bonds_at_limit(random), last_atoms(random)].concat()
}

fn atoms_at_limit() -> Vec<Input> {
    let of_atoms = |n: usize| {
        let path = Input::new(format!("path, n = {}", n), n, &path(n.min(97)));
        let mut odd = path.clone();
        odd.bytes.push(0);
        [path, Input::new(format!("no bonds, n = {}", n), n, &[]), odd]
    };
    [0, 1, 2, 63, 64, 65, 66, 96, 255, 256, usize::MAX].into_iter().flat_map(of_atoms).collect()
}

/// Too long or odd, or just not, and full of faults that come later in the table.
fn bytes_at_limit() -> Vec<Input> {
    let lengths = [191, 192, 193, 194, 195, 255, 256, 257, 512, 513, 65_536, 131_073];
    let input = |(bytes, n): (usize, usize)| Input { name: format!("{} bytes, n = {}", bytes, n), n, bytes: vec![7; bytes] };
    pairs(lengths, [0, 1, 64, 65, usize::MAX]).map(input).collect()
}

fn both_at_limit(random: &mut Random) -> Vec<Input> {
    let one = |(n, m): (usize, usize)| {
        let sound = inputs::random(random, n, m);
        // A fault behind the limit, which must not be looked at first.
        let mut faulty = sound.clone();
        faulty.bytes[2 * random.below(m)] = n as u8;
        let mut odd = faulty.clone();
        odd.bytes.pop();
        [sound, faulty, odd]
    };
    pairs(60..=66, 94..=98).flat_map(|pair| repeat_n(pair, 8)).flat_map(one).collect()
}

fn bonds_at_limit(random: &mut Random) -> Vec<Input> {
    let numbers = pairs(94..=98, [15, 16, 20, 24, 32, 40, 48, 56]).flat_map(|pair| repeat_n(pair, 6));
    numbers.map(|(m, n)| inputs::random(random, n, m)).collect()
}

/// The last atom is named, and one beyond it.
fn last_atoms(random: &mut Random) -> Vec<Input> {
    let one = |(n, past): (usize, usize)| {
        let mut bonds = path(n);
        let k = random.below(n - 1);
        let bond = bonds[k];
        bonds[k] = if random.below(2) == 0 { (bond.0, n - 1 + past) } else { (n - 1 + past, bond.1) };
        Input::new(format!("atom {} of {}", n - 1 + past, n), n, &bonds)
    };
    pairs(2..=64, 0..2).map(one).collect()
}

// Damaged inputs

/// Inputs of the three lists, and random ones, with faults put in.
fn damaged_ones(random: &mut Random, lists: [&[Input]; 3]) -> Vec<Input> {
    let one = |i: usize| {
        let sound = match lists.get(i % 4) {
            Some(list) => list[random.below(list.len())].clone(),
            None => {
                let n = random.within(2, 64);
                let m = random.within(n, n + 33);
                inputs::random(random, n, m)
            }
        };
        damaged(random, &sound)
    };
    (0..8000).map(one).collect()
}

/// A sound input with one to three faults put in.
fn damaged(random: &mut Random, sound: &Input) -> Input {
    let mut input = sound.clone();
    input.name += " damaged";
    for _ in 0..random.within(1, 3) {
        put_fault(random, &mut input);
    }
    input
}

fn put_fault(random: &mut Random, input: &mut Input) {
    let m = input.bytes.len() / 2;
    if m == 0 {
        input.bytes.push(random.below(256) as u8);
        return;
    }
    let k = random.below(m);
    match random.below(9) {
        0 => drop(input.bytes.pop()),
        1 => input.bytes[random.below(2 * m)] = random.within(input.n.min(255), 255) as u8,
        2 => input.bytes[random.below(2 * m)] = input.n.min(255) as u8,
        3 => input.bytes[2 * k] = input.bytes[2 * k + 1],
        4 | 5 => put_again(random, input, k),
        6 => drop(input.bytes.drain(2 * k..2 * k + 2)),
        7 => input.n = [0, input.n + 1, input.n.saturating_sub(1), 64, 65][random.below(5)],
        _ => input.bytes[random.below(2 * m)] = random.below(input.n.max(1).min(256)) as u8,
    }
}

/// Bond k again, one of the two times turned round, at the end or in place of another.
fn put_again(random: &mut Random, input: &mut Input, k: usize) {
    let mut bond = [input.bytes[2 * k], input.bytes[2 * k + 1]];
    if random.below(2) == 0 {
        bond.reverse();
    }
    if random.below(2) == 0 {
        input.bytes.extend(bond);
    } else {
        let j = random.below(input.bytes.len() / 2);
        input.bytes[2 * j..2 * j + 2].copy_from_slice(&bond);
    }
}

fn random_bytes(random: &mut Random) -> Vec<Input> {
    let one = |_| {
        let n = random.below(8);
        let length = random.below(14);
        Input { name: "random bytes".into(), n, bytes: (0..length).map(|_| random.below(n + 2) as u8).collect() }
    };
    (0..2000).map(one).collect()
}
