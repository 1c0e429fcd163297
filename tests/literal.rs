//! The first judge: every definition taken literally, for compounds of at most 15 bonds.
//! Bond sets are all tried, sums are all written out, families are searched for among the rings, and the minimum
//! bases are all listed, so nothing here rests on linear algebra or on a theorem.

use crate::compound::{numbers_in, Compound, Kept, Listing, ODD};

/// Beyond this many minimum bases the classes are left to the other judges.
const BASES: usize = 60_000;

struct Literal<'a> {
    c: &'a Compound,
    /// For each atom, the set of its bonds.
    touch: Vec<u32>,
    /// Distances in the whole compound.
    distance: Vec<Vec<usize>>,
}

/// All sums of the sets given so far, written out.
struct Sums {
    all: Vec<u32>,
    known: Vec<bool>,
}

impl Sums {
    fn none(bonds: usize) -> Sums {
        let mut known = vec![false; 1 << bonds];
        known[0] = true;
        Sums { all: vec![0], known }
    }
    fn holds(&self, set: u32) -> bool {
        self.known[set as usize]
    }
    /// Adds a set; returns how many sums there were before.
    fn add(&mut self, set: u32) -> usize {
        let before = self.all.len();
        if !self.holds(set) {
            for i in 0..before {
                let sum = self.all[i] ^ set;
                self.all.push(sum);
                self.known[sum as usize] = true;
            }
        }
        before
    }
    fn add_all(&mut self, sets: &[u32]) {
        for set in sets {
            self.add(*set);
        }
    }
    /// Takes back what was added since there were so many sums.
    fn back_to(&mut self, before: usize) {
        for sum in self.all.drain(before..) {
            self.known[sum as usize] = false;
        }
    }
}

impl<'a> Literal<'a> {
    fn new(c: &'a Compound) -> Literal<'a> {
        let touch = |v: usize| (0..c.bonds.len()).filter(|k| c.bonds[*k].0 == v || c.bonds[*k].1 == v).fold(0, |set, k| set | 1 << k);
        Literal { c, touch: (0..c.n).map(touch).collect(), distance: distances(c) }
    }

    fn closed(&self, set: u32) -> bool {
        self.touch.iter().all(|t| (set & t).count_ones() % 2 == 0)
    }

    /// Non-empty, closed, connected, and meeting each of its atoms exactly twice.
    fn ring(&self, set: u32) -> bool {
        if set == 0 || !self.touch.iter().all(|t| matches!((set & t).count_ones(), 0 | 2)) {
            return false;
        }
        let (mut reached, mut before) = (1u32 << set.trailing_zeros(), 0);
        while reached != before {
            before = reached;
            reached = self.touch.iter().filter(|t| *t & before != 0).fold(before, |sum, t| sum | set & t);
        }
        reached == set
    }

    /// Whether s is a neighbour of t that is nearer to r by one.
    fn nearer(&self, s: usize, t: usize, r: usize) -> bool {
        self.c.bonded(t, s) && self.distance[s][r] + 1 == self.distance[t][r]
    }

    /// All shortest paths from t to r, each as its atoms from t to r.
    fn shortest_paths(&self, t: usize, r: usize) -> Vec<Vec<usize>> {
        if t == r {
            return vec![vec![r]];
        }
        let next = (0..self.c.n).filter(|s| self.nearer(*s, t, r));
        next.flat_map(|s| self.shortest_paths(s, r)).map(|rest| [vec![t], rest].concat()).collect()
    }

    /// The shortest paths from t to r whose atoms other than r precede r.
    fn down_paths(&self, t: usize, r: usize) -> Vec<Vec<usize>> {
        let mut all = self.shortest_paths(t, r);
        all.retain(|path| path.iter().all(|a| *a <= r) && path.iter().filter(|a| **a == r).count() == 1);
        all
    }

    fn under(&self, t: usize, r: usize) -> bool {
        t < r && !self.down_paths(t, r).is_empty()
    }

    /// From t each time to the lowest-numbered neighbour that is nearer to r by one and is r or under r.
    fn chosen_path(&self, t: usize, r: usize) -> Vec<usize> {
        let mut path = vec![t];
        let mut at = t;
        while at != r {
            let allowed = |s: &usize| self.nearer(*s, at, r) && (*s == r || self.under(*s, r));
            at = (0..self.c.n).find(allowed).expect("an atom under r has a next atom");
            path.push(at);
        }
        path
    }

    fn bonds_of(&self, path: &[usize]) -> u32 {
        path.windows(2).fold(0, |set, w| set | 1 << self.c.bond(w[0], w[1]).unwrap())
    }
}

/// Distances in the whole compound, by allowing one atom after the other as a station.
fn distances(c: &Compound) -> Vec<Vec<usize>> {
    let row = |of: &dyn Fn(usize) -> usize| -> Vec<usize> { (0..c.n).map(of).collect() };
    let direct = |a: usize, b: usize| match (a == b, c.bonded(a, b)) {
        (true, _) => 0,
        (_, true) => 1,
        // No path is as long as the number of atoms.
        _ => c.n,
    };
    let all_direct: Vec<Vec<usize>> = (0..c.n).map(|a| row(&|b| direct(a, b))).collect();
    (0..c.n).fold(all_direct, |d, v| (0..c.n).map(|a| row(&|b| d[a][b].min(d[a][v] + d[v][b]))).collect())
}

/// A candidate that is not dropped.
struct Candidate {
    length: usize,
    r: usize,
    p: usize,
    q: usize,
    x: usize,
    /// The bond p-q, or the two bonds of the path p, x, q.
    link: u32,
    prototype: u32,
}

/// All candidates in row order.
fn candidates(l: &Literal) -> Vec<Candidate> {
    let mut all: Vec<Candidate> = (0..l.c.n).flat_map(|r| of_top(l, r)).collect();
    all.sort_by_key(|f| (f.length, f.r, f.x, f.p, f.q));
    all
}

/// The candidates with top atom r.
fn of_top(l: &Literal, r: usize) -> Vec<Candidate> {
    let under: Vec<usize> = (0..l.c.n).filter(|t| l.under(*t, r)).collect();
    let ends = under.iter().flat_map(|p| under.iter().map(move |q| (*p, *q)));
    ends.filter(|&(p, q)| p < q && l.distance[p][r] == l.distance[q][r]).flat_map(|(p, q)| of_ends(l, &under, r, p, q)).collect()
}

/// The candidates with top atom r in which p and q, both at one distance from r, are the ends of the paths.
fn of_ends(l: &Literal, under: &[usize], r: usize, p: usize, q: usize) -> Vec<Candidate> {
    let (path_p, path_q) = (l.chosen_path(p, r), l.chosen_path(q, r));
    if path_p.iter().any(|a| *a != r && path_q.contains(a)) {
        return Vec::new();
    }
    let paths = l.bonds_of(&path_p) | l.bonds_of(&path_q);
    let d = l.distance[p][r];
    let candidate = |length: usize, x: usize, link: u32| Candidate { length, r, p, q, x, link, prototype: paths | link };
    let odd = l.c.bonded(p, q).then(|| candidate(2 * d + 1, ODD, l.bonds_of(&[p, q])));
    let opposite = under.iter().filter(|&&x| l.distance[x][r] == d + 1 && l.c.bonded(p, x) && l.c.bonded(x, q));
    odd.into_iter().chain(opposite.map(|&x| candidate(2 * d + 2, x, l.bonds_of(&[p, x, q])))).collect()
}

/// The members of a family among the rings: of its length, through r and the link, made up with down paths.
fn members(l: &Literal, f: &Candidate, rings: &[u32]) -> Vec<u32> {
    let (from_p, from_q) = (l.down_paths(f.p, f.r), l.down_paths(f.q, f.r));
    let of_paths = |ring: u32| from_p.iter().any(|a| from_q.iter().any(|b| ring == l.bonds_of(a) | l.bonds_of(b) | f.link));
    rings
        .iter()
        .copied()
        .filter(|&ring| ring.count_ones() as usize == f.length && ring & l.touch[f.r] != 0 && ring & f.link == f.link && of_paths(ring))
        .collect()
}

/// Lists all minimum bases by choosing closed sets in order of length; a part that can reach no total as low as the best is left.
struct Bases<'a> {
    closed: &'a [u32],
    best: u32,
    found: Vec<Vec<u32>>,
    chosen: Vec<u32>,
    sums: Sums,
}

impl<'a> Bases<'a> {
    fn search(&mut self, from: usize, left: usize, total: u32) {
        if left == 0 {
            if total < self.best {
                self.best = total;
                self.found.clear();
            }
            self.found.push(self.chosen.clone());
            return;
        }
        for i in from..self.closed.len() {
            let set = self.closed[i];
            if total + left as u32 * set.count_ones() > self.best || self.found.len() > BASES {
                return;
            }
            if !self.sums.holds(set) {
                let before = if left > 1 { self.sums.add(set) } else { self.sums.all.len() };
                self.chosen.push(set);
                self.search(i + 1, left - 1, total + set.count_ones());
                self.chosen.pop();
                self.sums.back_to(before);
            }
        }
    }
}

/// For each relevant ring the relevant rings that it is interchangeable with, by swaps between minimum bases.
fn interchangeable(bases: &[Vec<u32>], relevant: &[u32]) -> Result<Vec<u64>, String> {
    let mut with: Vec<u64> = (0..relevant.len()).map(|i| 1 << i).collect();
    // Bases that are the same but for one ring: each of these rings can be put for each other.
    for same in swaps(bases, relevant)?.chunk_by(|a, b| a.0 == b.0) {
        let all = same.iter().fold(0, |all, (_, i)| all | 1 << i);
        numbers_in(all as u128).for_each(|i| with[i] |= all);
    }
    check_equivalence(&with, relevant)?;
    Ok(with)
}

/// Each minimum basis without each of its rings, and that ring, sorted; rings are numbered as the relevant ones are.
fn swaps(bases: &[Vec<u32>], relevant: &[u32]) -> Result<Vec<(u64, usize)>, String> {
    let mut swaps = Vec::new();
    for basis in bases {
        let numbers: Option<Vec<usize>> = basis.iter().map(|ring| relevant.iter().position(|x| x == ring)).collect();
        let numbers = numbers.ok_or("a minimum basis holds a set that is no relevant ring")?;
        let set = numbers.iter().fold(0u64, |set, i| set | 1 << i);
        swaps.extend(numbers.iter().map(|i| (set & !(1 << i), *i)));
    }
    swaps.sort_unstable();
    Ok(swaps)
}

/// Interchangeable rings must be interchangeable with the same rings, and of one length.
fn check_equivalence(with: &[u64], relevant: &[u32]) -> Result<(), String> {
    for (i, j) in (0..with.len()).flat_map(|i| numbers_in(with[i] as u128).map(move |j| (i, j))) {
        if with[j] != with[i] {
            return Err("interchangeability is no equivalence".into());
        }
        if relevant[i].count_ones() != relevant[j].count_ones() {
            return Err("interchangeable rings of two lengths".into());
        }
    }
    Ok(())
}

/// The rings, in order of length, that no set of strictly shorter rings sums to.
fn relevant_of(rings: &[u32], bonds: usize) -> Vec<u32> {
    let mut relevant = Vec::new();
    let mut shorter = Sums::none(bonds);
    for of_length in rings.chunk_by(|a, b| a.count_ones() == b.count_ones()) {
        relevant.extend(of_length.iter().filter(|ring| !shorter.holds(**ring)));
        shorter.add_all(of_length);
    }
    relevant
}

/// The kept families, each held to its members: all are relevant and of one class, and each relevant ring is in one family.
fn kept_families(l: &Literal, rings: &[u32], relevant: &[u32], with: &[u64]) -> Result<Vec<Kept>, String> {
    let mut kept = Vec::new();
    let mut marked = Sums::none(l.c.bonds.len());
    let mut placed: Vec<usize> = Vec::new();
    for f in candidates(l).iter().filter(|f| relevant.contains(&f.prototype)) {
        let numbers: Option<Vec<usize>> = members(l, f, rings).iter().map(|ring| relevant.iter().position(|s| s == ring)).collect();
        let numbers = numbers.ok_or("a member of a kept family is not relevant")?;
        let group = with[relevant.iter().position(|s| *s == f.prototype).unwrap()].trailing_zeros();
        if numbers.iter().any(|i| with[*i].trailing_zeros() != group) {
            return Err("members of one family are in two classes".into());
        }
        let mark = !marked.holds(f.prototype);
        marked.add(f.prototype);
        let size = numbers.len() as u128;
        kept.push(Kept { length: f.length, r: f.r, p: f.p, q: f.q, x: f.x, mark, group: group as usize, size });
        placed.extend(numbers);
    }
    placed.sort_unstable();
    if !placed.into_iter().eq(0..relevant.len()) {
        return Err("a relevant ring is not in exactly one kept family".into());
    }
    Ok(kept)
}

/// The listing, and whether its classes were found here (there may be too many minimum bases).
pub fn listing(c: &Compound) -> Result<(Listing, bool), String> {
    let l = Literal::new(c);
    let bonds = c.bonds.len();
    let mut closed: Vec<u32> = (1..1u32 << bonds).filter(|s| l.closed(*s)).collect();
    closed.sort_by_key(|s| (s.count_ones(), *s));
    let rings: Vec<u32> = closed.iter().copied().filter(|s| l.ring(*s)).collect();
    let relevant = relevant_of(&rings, bonds);

    let mut bases = Bases { closed: &closed, best: u32::MAX, found: Vec::new(), chosen: Vec::new(), sums: Sums::none(bonds) };
    bases.search(0, c.cyclomatic(), 0);
    let all_found = bases.found.len() <= BASES && relevant.len() <= 64;
    let with = if all_found { interchangeable(&bases.found, &relevant)? } else { vec![0; relevant.len()] };

    let listing = Listing::new(c.cyclomatic(), &kept_families(&l, &rings, &relevant, &with)?);
    if bases.best as u64 != listing.total && c.cyclomatic() > 0 {
        return Err("the marked rings have not the least total".into());
    }
    Ok((listing, all_found))
}
