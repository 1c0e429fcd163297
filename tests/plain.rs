//! The third judge, for compounds of any size: a plain engine. Horton's rings give a minimum basis; its members shorter
//! than k sum to everything that the rings shorter than k sum to, so they decide relevance. Sizes are counted by paths.

use crate::compound::{numbers_in, Compound, Kept, Listing, ODD};
use crate::span::{Groups, Span};
use std::collections::VecDeque;

struct Graph<'a> {
    c: &'a Compound,
    near: Vec<Vec<usize>>,
    /// bond[a][b] is the set of the bond a-b, empty if there is none.
    bond: Vec<Vec<u128>>,
    distance: Vec<Vec<usize>>,
}

impl<'a> Graph<'a> {
    fn new(c: &'a Compound) -> Graph<'a> {
        let near = c.neighbours();
        let bond = (0..c.n).map(|a| (0..c.n).map(|b| c.bond(a, b).map_or(0, |k| 1 << k)).collect()).collect();
        let distance = (0..c.n).map(|r| distances(&near, r)).collect();
        Graph { c, near, bond, distance }
    }

    /// A shortest path from t to r by the lowest-numbered nearer neighbour that is allowed.
    fn path(&self, t: usize, r: usize, allowed: &dyn Fn(usize) -> bool) -> Vec<usize> {
        let mut path = vec![t];
        let mut at = t;
        while at != r {
            at = *self.near[at].iter().find(|&&s| self.distance[r][s] < self.distance[r][at] && allowed(s)).unwrap();
            path.push(at);
        }
        path
    }

    fn bonds_of(&self, path: &[usize]) -> u128 {
        path.windows(2).fold(0, |set, w| set ^ self.bond[w[0]][w[1]])
    }

    /// Horton's rings for one atom: every bond, and one shortest path from each of its ends to the atom.
    fn horton_rings(&self, v: usize) -> Vec<u128> {
        let path: Vec<Vec<usize>> = (0..self.c.n).map(|t| self.path(t, v, &|_| true)).collect();
        let apart = self.c.bonds.iter().filter(|(a, b)| meet_only_at(v, &path[*a], &path[*b]));
        apart.map(|&(a, b)| self.bonds_of(&path[a]) ^ self.bonds_of(&path[b]) ^ self.bond[a][b]).collect()
    }

    /// Horton's minimum basis in order of length.
    fn horton(&self) -> Vec<u128> {
        let mut rings: Vec<u128> = (0..self.c.n).flat_map(|v| self.horton_rings(v)).collect();
        rings.retain(|ring| *ring != 0);
        rings.sort_unstable_by_key(|ring| (ring.count_ones(), *ring));
        rings.dedup();
        let mut span = Span::default();
        rings.retain(|ring| span.rank() < self.c.cyclomatic() && span.add(*ring));
        rings
    }
}

/// Distances from an atom, atom by atom from a queue.
fn distances(near: &[Vec<usize>], r: usize) -> Vec<usize> {
    let mut distance = vec![usize::MAX; near.len()];
    distance[r] = 0;
    let mut queue = VecDeque::from([r]);
    while let Some(a) = queue.pop_front() {
        for &b in &near[a] {
            if distance[b] == usize::MAX {
                distance[b] = distance[a] + 1;
                queue.push_back(b);
            }
        }
    }
    distance
}

/// Whether two paths to an atom share no atom but that one.
fn meet_only_at(r: usize, path_p: &[usize], path_q: &[usize]) -> bool {
    path_p.iter().all(|a| *a == r || !path_q.contains(a))
}

/// A candidate that is not dropped: length, r, x, p and q in row order, its prototype, and the size that its family would have.
type Candidate = ((usize, usize, usize, usize, usize), u128, u128);

/// A top atom r, and from each atom the number of shortest paths to r whose atoms other than r precede r.
struct Top<'a> {
    g: &'a Graph<'a>,
    r: usize,
    paths: Vec<u128>,
}

impl<'a> Top<'a> {
    fn new(g: &'a Graph<'a>, r: usize) -> Top<'a> {
        let distance = &g.distance[r];
        let mut paths = vec![0u128; g.c.n];
        paths[r] = 1;
        let mut order: Vec<usize> = (0..r).collect();
        order.sort_by_key(|t| distance[*t]);
        for t in order {
            paths[t] = g.near[t].iter().filter(|s| distance[**s] < distance[t]).map(|s| paths[*s]).sum();
        }
        Top { g, r, paths }
    }

    fn under(&self, t: usize) -> bool {
        t < self.r && self.paths[t] > 0
    }

    /// The candidate of p and q, unless it is dropped; the link is the path from p to q that does not go through r.
    fn candidate(&self, x: usize, length: usize, link: &[usize]) -> Option<Candidate> {
        let (g, r, p, q) = (self.g, self.r, link[0], link[link.len() - 1]);
        let allowed = |s: usize| s == r || self.under(s);
        let (path_p, path_q) = (g.path(p, r, &allowed), g.path(q, r, &allowed));
        let prototype = || g.bonds_of(&path_p) ^ g.bonds_of(&path_q) ^ g.bonds_of(link);
        meet_only_at(r, &path_p, &path_q).then(|| ((length, r, x, p, q), prototype(), self.paths[p] * self.paths[q]))
    }

    /// The candidates in which an atom under r is p of an odd one or x of an even one.
    fn candidates(&self, x: usize) -> Vec<Candidate> {
        let distance = &self.g.distance[self.r];
        let d = distance[x];
        let ends: Vec<usize> = self.g.near[x].iter().copied().filter(|p| self.under(*p) && distance[*p] <= d).collect();
        let odd = ends.iter().filter(|q| **q > x && distance[**q] == d).map(|q| self.candidate(ODD, 2 * d + 1, &[x, *q]));
        let nearer = ends.iter().filter(|p| distance[**p] < d);
        let pairs = nearer.clone().flat_map(|p| nearer.clone().filter(move |q| p < q).map(move |q| (*p, *q)));
        odd.chain(pairs.map(|(p, q)| self.candidate(x, 2 * d, &[p, x, q]))).flatten().collect()
    }
}

/// All candidates in row order.
fn candidates(g: &Graph) -> Vec<Candidate> {
    let of_top = |top: Top| -> Vec<Candidate> { (0..top.r).filter(|x| top.under(*x)).flat_map(|x| top.candidates(x)).collect() };
    let mut all: Vec<Candidate> = (0..g.c.n).flat_map(|r| of_top(Top::new(g, r))).collect();
    all.sort_unstable();
    all
}

/// Adds Horton's rings up to a length; those that the span has already are its members, in their order.
fn add_up_to(length: usize, horton: &[u128], span: &mut Span) {
    span.add_all(horton[span.rank()..].iter().copied().take_while(|ring| ring.count_ones() as usize <= length));
}

/// The kept ones among the candidates of one length; `shorter` is the span of Horton's shorter rings.
fn kept_of_length(candidates: &[Candidate], horton: &[u128], shorter: &Span, marked: &mut Span) -> Vec<Kept> {
    let mut span = shorter.clone();
    add_up_to(candidates[0].0 .0, horton, &mut span);
    let mut groups = Groups::new(horton.len());
    let relevant = candidates.iter().filter(|(_, prototype, _)| !shorter.holds(*prototype));
    let mut kept: Vec<Kept> = Vec::new();
    for &((length, r, x, p, q), prototype, size) in relevant {
        // Horton's rings of this length are relevant, so a kept prototype is in one class with each of them that it needs.
        let used = span.members(prototype).expect("Horton's rings sum to every closed set");
        let needed = used >> shorter.rank() << shorter.rank();
        let first = needed.trailing_zeros() as usize;
        groups.join(first, numbers_in(needed));
        kept.push(Kept { length, r, p, q, x, mark: marked.add(prototype), group: first, size });
    }
    kept.into_iter().map(|f| Kept { group: groups.of(f.group), ..f }).collect()
}

/// The listing.
pub fn listing(c: &Compound) -> Listing {
    let g = Graph::new(c);
    let horton = g.horton();
    let mut kept: Vec<Kept> = Vec::new();
    let (mut marked, mut shorter) = (Span::default(), Span::default());
    for of_length in candidates(&g).chunk_by(|a, b| a.0 .0 == b.0 .0) {
        add_up_to(of_length[0].0 .0 - 1, &horton, &mut shorter);
        kept.extend(kept_of_length(of_length, &horton, &shorter, &mut marked));
    }
    Listing::new(c.cyclomatic(), &kept)
}
