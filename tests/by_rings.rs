//! The second judge: from the rings up. All rings are searched out length by length, the relevant ones among them are
//! found by elimination over all shorter rings, and each relevant ring is put into the family that its own top atom and
//! the atoms opposite name. Candidates are never made; sizes are numbers of rings counted one by one.

use crate::compound::{numbers_in, Compound, Kept, Listing, ODD};
use crate::span::{Groups, Span};
use std::collections::BTreeMap;

/// Steps of the search for rings after which this judge stands back.
const STEPS: usize = 100_000;

/// The search for rings; its steps are counted over all lengths.
struct Search {
    near: Vec<Vec<usize>>,
    /// Distances to the lowest atom of the ring sought.
    back: Vec<usize>,
    path: Vec<usize>,
    found: Vec<Vec<usize>>,
    steps: usize,
}

impl Search {
    /// The rings of a length, each as its atoms in turn; none if the search takes too many steps.
    fn rings(&mut self, length: usize) -> Option<Vec<Vec<usize>>> {
        for first in 0..self.near.len() {
            self.back = distances(&self.near, first);
            self.path = vec![first];
            self.extend(length);
        }
        (self.steps <= STEPS).then(|| std::mem::take(&mut self.found))
    }

    /// Extends the path to rings of this length on which the first atom is the lowest.
    fn extend(&mut self, length: usize) {
        self.steps += 1;
        if self.steps > STEPS {
            return;
        }
        let (first, last) = (self.path[0], *self.path.last().unwrap());
        if self.path.len() == length {
            // Each ring is met in both directions; one is taken.
            if self.near[last].contains(&first) && self.path[1] < last {
                self.found.push(self.path.clone());
            }
            return;
        }
        for i in 0..self.near[last].len() {
            let s = self.near[last][i];
            if s > first && self.back[s] + self.path.len() <= length && !self.path.contains(&s) {
                self.path.push(s);
                self.extend(length);
                self.path.pop();
            }
        }
    }
}

/// Distances from an atom, layer by layer.
fn distances(near: &[Vec<usize>], from: usize) -> Vec<usize> {
    let mut distance = vec![usize::MAX; near.len()];
    distance[from] = 0;
    let (mut layer, mut d) = (vec![from], 0);
    while !layer.is_empty() {
        d += 1;
        let mut next = Vec::new();
        for &b in layer.iter().flat_map(|a| &near[*a]) {
            if distance[b] == usize::MAX {
                distance[b] = d;
                next.push(b);
            }
        }
        layer = next;
    }
    distance
}

/// A ring as its path from p to the top atom, its path from q to the top atom, and its bonds.
type Member = (Vec<usize>, Vec<usize>, u128);

/// What names a family: length, r, x, p and q, in row order.
type Name = (usize, usize, usize, usize, usize);

/// The family that a ring names, and the ring as a member of it.
fn place(c: &Compound, ring: &[usize]) -> (Name, Member) {
    let length = ring.len();
    let set = (0..length).fold(0u128, |set, i| set | 1 << c.bond(ring[i], ring[(i + 1) % length]).unwrap());
    let top = (0..length).max_by_key(|i| ring[*i]).unwrap();
    let from_top: Vec<usize> = (0..length).map(|i| ring[(top + i) % length]).collect();
    let half = length / 2;
    // One arm goes forward from the top atom, the other backward; x, if any, stands between their ends.
    let arm = if length % 2 == 1 { half } else { half - 1 };
    let forward: Vec<usize> = (0..=arm).rev().map(|i| from_top[i]).collect();
    let backward: Vec<usize> = (length - arm..length).map(|i| from_top[i]).chain([from_top[0]]).collect();
    let x = if length % 2 == 1 { ODD } else { from_top[half] };
    let (path_p, path_q) = if forward[0] < backward[0] { (forward, backward) } else { (backward, forward) };
    ((length, from_top[0], x, path_p[0], path_q[0]), (path_p, path_q, set))
}

/// The group of each relevant ring of one length: two are in one group if they are joined by expansions over a basis of
/// the relevant rings modulo the shorter rings. The basis is taken from the last ring backwards.
fn groups(shorter: &Span, rings: &[u128]) -> Vec<usize> {
    let mut span = shorter.clone();
    let basis: Vec<usize> = (0..rings.len()).rev().filter(|i| span.add(rings[*i])).collect();
    let mut groups = Groups::new(rings.len());
    for (i, ring) in rings.iter().enumerate() {
        let used = span.members(*ring).unwrap() >> shorter.rank();
        groups.join(i, numbers_in(used).map(|j| basis[j]));
    }
    (0..rings.len()).map(|i| groups.of(i)).collect()
}

/// The family of a name from its members, each with its group.
fn kept((length, r, x, p, q): Name, members: &[(&Member, usize)], marked: &mut Span) -> Result<Kept, String> {
    // The lowest-numbered step each time makes the first path in the order of atom numbers.
    let (prototype, group) = members.iter().min().unwrap();
    if members.iter().any(|(_, g)| g != group) {
        return Err("members of one family are in two classes".into());
    }
    let mark = marked.add(prototype.2);
    // Groups of different lengths are kept apart.
    Ok(Kept { length, r, p, q, x, mark, group: group + (length << 32), size: members.len() as u128 })
}

/// The families of one length, from all rings of that length.
fn kept_of_length(placed: &[(Name, Member)], shorter: &Span, marked: &mut Span) -> Result<Vec<Kept>, String> {
    let relevant: Vec<&(Name, Member)> = placed.iter().filter(|(_, member)| !shorter.holds(member.2)).collect();
    let sets: Vec<u128> = relevant.iter().map(|(_, member)| member.2).collect();
    let mut families: BTreeMap<Name, Vec<(&Member, usize)>> = BTreeMap::new();
    for ((name, member), group) in relevant.into_iter().zip(groups(shorter, &sets)) {
        families.entry(*name).or_default().push((member, group));
    }
    families.iter().map(|(name, members)| kept(*name, members, marked)).collect()
}

/// The listing; none if there are too many rings to search out.
pub fn listing(c: &Compound) -> Result<Option<Listing>, String> {
    let mut search = Search { near: c.neighbours(), back: Vec::new(), path: Vec::new(), found: Vec::new(), steps: 0 };
    let (mut marked, mut shorter) = (Span::default(), Span::default());
    let mut all: Vec<Kept> = Vec::new();
    let mut length = 3;
    // When the rings so far sum to every closed set, no longer ring is relevant.
    while shorter.rank() < c.cyclomatic() {
        let Some(rings) = search.rings(length) else { return Ok(None) };
        let placed: Vec<(Name, Member)> = rings.iter().map(|ring| place(c, ring)).collect();
        all.extend(kept_of_length(&placed, &shorter, &mut marked)?);
        shorter.add_all(placed.iter().map(|(_, member)| member.2));
        length += 1;
    }
    Ok(Some(Listing::new(c.cyclomatic(), &all)))
}
