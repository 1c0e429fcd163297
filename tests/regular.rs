//! Regular compounds: the bonds of each kind, and a list of all that keep to the limits.

use crate::inputs::{pairs, Input};
use std::iter::once;

/// The two atoms of each bond.
pub type Bonds = Vec<(usize, usize)>;

/// The bonds from each of some atoms to the next.
pub fn walk(atoms: impl Iterator<Item = usize>) -> Bonds {
    let atoms: Vec<usize> = atoms.collect();
    atoms.windows(2).map(|w| (w[0], w[1])).collect()
}

/// The atoms 0 to n - 1 in a row.
pub fn path(n: usize) -> Bonds {
    walk(0..n)
}

/// The atoms 0 to n - 1 in a ring.
pub fn ring(n: usize) -> Bonds {
    (0..n).map(|a| (a, (a + 1) % n)).collect()
}

/// Every atom bonded to every other.
pub fn complete(n: usize) -> Bonds {
    (0..n).flat_map(|b| (0..b).map(move |a| (a, b))).collect()
}

/// Every atom of the first part bonded to every atom of the second.
pub fn bipartite(a: usize, b: usize) -> Bonds {
    pairs(0..a, a..a + b).collect()
}

/// Atoms bonded where their binary forms differ in one place.
pub fn cube(places: usize) -> Bonds {
    pairs(0..1 << places, 0..places).map(|(a, i)| (a, a ^ 1 << i)).filter(|(a, b)| a < b).collect()
}

/// A ring and one atom bonded to all of it.
pub fn wheel(spokes: usize) -> Bonds {
    ring(spokes).into_iter().chain((0..spokes).map(|a| (a, spokes))).collect()
}

/// Two rings of equal length, atom by atom bonded.
pub fn prism(n: usize) -> Bonds {
    let second = ring(n).into_iter().map(|(a, b)| (a + n, b + n));
    ring(n).into_iter().chain(second).chain((0..n).map(|a| (a, a + n))).collect()
}

/// A ring with bonds across it.
pub fn moebius(half: usize) -> Bonds {
    ring(2 * half).into_iter().chain((0..half).map(|a| (a, a + half))).collect()
}

/// Squares in rows.
pub fn grid(wide: usize, high: usize) -> Bonds {
    let of_place = |(y, x): (usize, usize)| {
        let a = y * wide + x;
        [(x + 1 < wide).then_some((a, a + 1)), (y + 1 < high).then_some((a, a + wide))]
    };
    pairs(0..high, 0..wide).flat_map(of_place).flatten().collect()
}

/// Two atoms joined by paths of one length.
pub fn theta(paths: usize, steps: usize) -> Bonds {
    let between = |i: usize| 2 + i * (steps - 1)..2 + (i + 1) * (steps - 1);
    (0..paths).flat_map(|i| walk(once(0).chain(between(i)).chain(once(1)))).collect()
}

/// A long ring made of squares joined by bonds: one family whose size doubles with each square.
pub fn necklace(squares: usize) -> Bonds {
    let of_square = |i: usize| {
        let (a, next) = (4 * i, 4 * (i + 1) % (4 * squares));
        [(a, a + 1), (a, a + 2), (a + 1, a + 3), (a + 2, a + 3), (a + 3, next)]
    };
    (0..squares).flat_map(of_square).collect()
}

/// Layers of atoms, each layer bonded to the next wholly, the first and last to one atom each, which are joined by a path
/// with `tail` atoms between.
pub fn layered(layers: usize, width: usize, tail: usize) -> Bonds {
    let (first, last) = (layers * width, layers * width + 1);
    let begin = (0..width).map(|a| (first, a));
    let between = (1..layers).flat_map(|i| pairs((i - 1) * width..i * width, i * width..(i + 1) * width));
    let end = ((layers - 1) * width..layers * width).map(|a| (a, last));
    let back = walk((last..=last + tail).chain(once(first)));
    begin.chain(between).chain(end).chain(back).collect()
}

/// A ring of `n` atoms with a bond from each atom a to a + step[a mod the number of steps] (modulo n): cages and such.
pub fn chords(n: usize, step: &[isize]) -> Bonds {
    let mut bonds = ring(n);
    for a in 0..n {
        let b = (a as isize + step[a % step.len()]).rem_euclid(n as isize) as usize;
        if !bonds.contains(&(a, b)) && !bonds.contains(&(b, a)) {
            bonds.push((a, b));
        }
    }
    bonds
}

/// The corners of an icosahedron: 0 on top, 1 to 5 and 6 to 10 around, 11 below; each with its neighbours in turn around it.
fn icosahedron() -> Vec<[usize; 5]> {
    let sides = (0..5).map(|i| (i, (i + 4) % 5, (i + 1) % 5));
    let upper = sides.clone().map(|(i, left, right)| [0, 1 + left, 6 + left, 6 + i, 1 + right]);
    let lower = sides.map(|(i, left, right)| [11, 6 + left, 1 + i, 1 + right, 6 + right]);
    once([1, 2, 3, 4, 5]).chain(upper).chain(lower).chain(once([6, 7, 8, 9, 10])).collect()
}

/// The truncated icosahedron: each corner v of an icosahedron becomes a five-ring of the atoms 5v to 5v + 4.
pub fn c60() -> Bonds {
    let around = icosahedron();
    let place = |v: usize, w: usize| 5 * v + around[v].iter().position(|x| *x == w).unwrap();
    let of_place = |(v, i): (usize, usize)| {
        let w = around[v][i];
        // Each edge of the icosahedron is met from both its corners; one is taken.
        [Some((5 * v + i, 5 * v + (i + 1) % 5)), (v < w).then(|| (place(v, w), place(w, v)))]
    };
    pairs(0..12, 0..5).flat_map(of_place).flatten().collect()
}

/// Regular compounds of all kinds, each within the limits.
pub fn regular() -> Vec<Input> {
    let mut all = [paths_to_bipartites(), wheels_to_moebius(), cubes_to_necklaces(), layers(), cages()].concat();
    all.retain(|input| input.n <= 64 && input.bytes.len() <= 2 * 96);
    all
}

// The lists below go somewhat beyond the limits where that makes them shorter to say.

fn paths_to_bipartites() -> Vec<Input> {
    let paths = (1..=64).map(|n| Input::new(format!("path {}", n), n, &path(n)));
    let rings = (3..=64).map(|n| Input::new(format!("ring {}", n), n, &ring(n)));
    let completes = (3..=14).map(|n| Input::new(format!("complete {}", n), n, &complete(n)));
    let parts = pairs(2..=9, 2..=48).filter(|(a, b)| a <= b);
    let bipartites = parts.map(|(a, b)| Input::new(format!("bipartite {} {}", a, b), a + b, &bipartite(a, b)));
    paths.chain(rings).chain(completes).chain(bipartites).collect()
}

fn wheels_to_moebius() -> Vec<Input> {
    let of_length = |n: usize| {
        [
            Input::new(format!("wheel {}", n), n + 1, &wheel(n)),
            Input::new(format!("prism {}", n), 2 * n, &prism(n)),
            Input::new(format!("moebius {}", n), 2 * n, &moebius(n)),
        ]
    };
    (3..=32).flat_map(of_length).collect()
}

fn cubes_to_necklaces() -> Vec<Input> {
    let cubes = (1..=5).map(|places| Input::new(format!("cube {}", places), 1 << places, &cube(places)));
    let sides = pairs(2..=8, 2..=8).filter(|(wide, high)| high <= wide);
    let grids = sides.map(|(wide, high)| Input::new(format!("grid {} {}", wide, high), wide * high, &grid(wide, high)));
    let thetas = pairs(2..=12, 2..=48).map(|(steps, paths)| {
        Input::new(format!("theta {} {}", paths, steps), 2 + paths * (steps - 1), &theta(paths, steps))
    });
    let necklaces = (2..=16).map(|squares| Input::new(format!("necklace {}", squares), 4 * squares, &necklace(squares)));
    cubes.chain(grids).chain(thetas).chain(necklaces).collect()
}

fn layers() -> Vec<Input> {
    let of_size = |(layers, width): (usize, usize)| {
        [0, layers, layers + 1, layers + 3].map(|tail| {
            let n = layers * width + 2 + tail;
            Input::new(format!("layered {} {} {}", layers, width, tail), n, &layered(layers, width, tail))
        })
    };
    pairs(1..=20, 2..=7).flat_map(of_size).collect()
}

fn cages() -> Vec<Input> {
    let by_chords: [(&str, usize, &[isize]); 10] = [
        ("Heawood", 14, &[5, -5]),
        ("Pappus", 18, &[5, 7, -7, 7, -7, -5]),
        ("Moebius-Kantor", 16, &[5, -5]),
        ("Desargues", 20, &[5, -5, 9, -9]),
        ("dodecahedron", 20, &[10, 7, 4, -4, -7, 10, -4, 7, -7, 4]),
        ("McGee", 24, &[12, 7, -7]),
        ("Franklin", 12, &[5, -5]),
        ("Tutte-Coxeter", 30, &[-13, -9, 7, -7, 9, 13]),
        ("Dyck", 32, &[5, -5, 13, -13]),
        ("Gray", 54, &[-25, 7, -7, 13, -13, 25]),
    ];
    let petersen: Bonds = (0..5).flat_map(|i| [(i, (i + 1) % 5), (i, i + 5), (5 + i, 5 + (i + 2) % 5)]).collect();
    let others = [Input::new("Petersen", 10, &petersen), Input::new("C60", 60, &c60())];
    by_chords.into_iter().map(|(name, n, step)| Input::new(name, n, &chords(n, step))).chain(others).collect()
}
