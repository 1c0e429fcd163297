//! Compounds built like molecules, and molecules by name.

use crate::inputs::{Input, Random};
use crate::regular::{walk, Bonds};
use std::iter::once;

/// What a molecule-like compound is mostly made of.
#[derive(Clone, Copy, Debug)]
pub enum Kind {
    /// Rings that share a bond.
    Fused,
    /// Rings that share an atom.
    Spiro,
    /// Paths between atoms that are joined already.
    Bridged,
    /// One large ring.
    Macrocycle,
    /// Rings on chains.
    DrugLike,
}

/// All kinds.
pub const KINDS: [Kind; 5] = [Kind::Fused, Kind::Spiro, Kind::Bridged, Kind::Macrocycle, Kind::DrugLike];

impl Kind {
    fn name(self) -> &'static str {
        match self {
            Kind::Fused => "fused",
            Kind::Spiro => "spiro",
            Kind::Bridged => "bridged",
            Kind::Macrocycle => "macrocycle",
            Kind::DrugLike => "drug-like",
        }
    }
}

/// A molecule in the making; each step is left out where an atom would get more than four bonds or a limit be passed.
struct Build<'a> {
    n: usize,
    bonds: Bonds,
    limit: usize,
    random: &'a mut Random,
}

impl Build<'_> {
    fn degree(&self, a: usize) -> usize {
        self.bonds.iter().filter(|(x, y)| *x == a || *y == a).count()
    }
    fn room(&self, atoms: usize) -> bool {
        self.n + atoms <= self.limit && self.bonds.len() + atoms < 96
    }
    fn ring_length(&mut self) -> usize {
        [5, 6, 6, 6, 6, 5, 7, 3, 4, 8][self.random.below(10)]
    }
    /// A random atom with at least this many free valences of four.
    fn atom(&mut self, free: usize) -> Option<usize> {
        let fit: Vec<usize> = (0..self.n).filter(|a| self.degree(*a) + free <= 4).collect();
        if fit.is_empty() {
            return None;
        }
        Some(fit[self.random.below(fit.len())])
    }
    /// A chain of new atoms from an atom; its last atom.
    fn chain(&mut self, from: usize, atoms: usize) -> usize {
        self.bonds.extend(walk(once(from).chain(self.n..self.n + atoms)));
        self.n += atoms;
        if atoms == 0 { from } else { self.n - 1 }
    }
    /// Joins two atoms (or one to itself) by a path of new atoms.
    fn arc(&mut self, a: usize, b: usize, atoms: usize) {
        let end = self.chain(a, atoms);
        self.bonds.push((end, b));
    }
    fn ring_on_bond(&mut self, length: usize) {
        let (x, y) = self.bonds[self.random.below(self.bonds.len())];
        if self.degree(x) < 4 && self.degree(y) < 4 && self.room(length - 2) {
            self.arc(x, y, length - 2);
        }
    }
    fn ring_on_atom(&mut self, length: usize) {
        if let (Some(x), true) = (self.atom(2), self.room(length - 1)) {
            self.arc(x, x, length - 1);
        }
    }
    /// A path, perhaps a single bond, between two atoms.
    fn bridge(&mut self) {
        if let (Some(x), Some(y)) = (self.atom(1), self.atom(1)) {
            let between = self.random.below(4);
            let bonded = self.bonds.contains(&(x, y)) || self.bonds.contains(&(y, x));
            if x != y && !(between == 0 && bonded) && self.room(between) {
                self.arc(x, y, between);
            }
        }
    }
    fn ring_on_chain(&mut self, length: usize) {
        let between = self.random.below(3);
        if let (Some(x), true) = (self.atom(1), self.room(length + between)) {
            let end = self.chain(x, between + 1);
            self.arc(end, end, length - 1);
        }
    }
    fn side_chain(&mut self) {
        let atoms = self.random.within(1, 3);
        if let (Some(x), true) = (self.atom(1), self.room(atoms)) {
            self.chain(x, atoms);
        }
    }
    /// One step: what is added depends on the kind and on chance.
    fn step(&mut self, kind: Kind) {
        let choice = self.random.below(10);
        let length = self.ring_length();
        match (kind, choice) {
            (Kind::Fused, 0..=6) | (Kind::Macrocycle | Kind::Bridged, 0..=2) | (Kind::DrugLike, 0..=1) | (Kind::Spiro, 0) => {
                self.ring_on_bond(length)
            }
            (Kind::Spiro, 1..=5) => self.ring_on_atom(length),
            (Kind::Bridged, 3..=7) => self.bridge(),
            (_, 0..=6) => self.ring_on_chain(length),
            _ => self.side_chain(),
        }
    }
}

/// A molecule-like compound of about `atoms` atoms: rings of 3 to 8 (or one large ring) that share bonds, atoms or
/// bridges, or hang on chains; no atom has more than four bonds.
pub fn molecule(random: &mut Random, kind: Kind, atoms: usize) -> Input {
    let mut build = Build { n: 1, bonds: Vec::new(), limit: atoms, random };
    let first = match kind {
        Kind::Macrocycle => (atoms / 2).max(9).min(atoms),
        _ => build.ring_length().min(atoms.max(3)),
    };
    build.arc(0, 0, first - 1);
    for _ in 0..4 * atoms {
        build.step(kind);
        if build.n + 1 >= build.limit {
            break;
        }
    }
    Input::new(format!("{} {} {}", kind.name(), build.n, build.bonds.len()), build.n, &build.bonds)
}

/// A SMILES text read so far.
#[derive(Default)]
struct Smiles {
    n: usize,
    bonds: Bonds,
    /// The atom that the next one is bonded to.
    last: Option<usize>,
    /// Where each open branch goes back to.
    branches: Vec<Option<usize>>,
    /// The atom that waits for each ring closure.
    open: [Option<usize>; 10],
}

impl Smiles {
    fn atom(&mut self) {
        self.bonds.extend(self.last.map(|before| (before, self.n)));
        self.last = Some(self.n);
        self.n += 1;
    }
    fn closure(&mut self, digit: usize) {
        let here = self.last.expect("a ring closure follows an atom");
        match self.open[digit].take() {
            Some(there) => self.bonds.push((there, here)),
            None => self.open[digit] = Some(here),
        }
    }
}

/// What a SMILES text names; element, charge, bond order and stereo marks are passed over.
fn smiles(text: &str) -> Smiles {
    let mut read = Smiles::default();
    let mut letters = text.chars().peekable();
    while let Some(letter) = letters.next() {
        match letter {
            '(' => read.branches.push(read.last),
            ')' => read.last = read.branches.pop().expect("a branch is open"),
            '0'..='9' => read.closure(letter as usize - '0' as usize),
            '[' => {
                letters.find(|inside| *inside == ']').expect("a bracket is closed");
                read.atom();
            }
            'A'..='Z' | 'a'..='z' => {
                // Chlorine and bromine are one atom of two letters.
                letters.next_if(|second| matches!((letter, second), ('C', 'l') | ('B', 'r')));
                read.atom();
            }
            _ => {}
        }
    }
    read
}

/// The molecules of `molecules.txt`.
pub fn molecules() -> Vec<Input> {
    include_str!("molecules.txt").lines().filter(|line| !line.starts_with('#')).map(named).collect()
}

/// The molecule of a line, whose atoms and cyclomatic number must be as the line states.
fn named(line: &str) -> Input {
    let field: Vec<&str> = line.split(' ').collect();
    let Smiles { n, bonds, .. } = smiles(field[3]);
    let stated = (field[1].parse::<usize>().unwrap(), field[2].parse::<usize>().unwrap());
    assert_eq!((n, bonds.len() + 1 - n), stated, "molecules.txt: {} (atoms, cyclomatic number)", field[0]);
    Input::new(field[0], n, &bonds)
}
