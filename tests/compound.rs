//! What the judges share: a compound as they read it, the faults of an input, and a listing with the bytes of its rows.

/// The bytes of a family row.
pub const FAMILY_ROW: usize = 8;
/// The bytes of a class row.
pub const CLASS_ROW: usize = 5;
/// The most family rows that count.
pub const FAMILIES: usize = 4096;
/// The most classes that there can be.
pub const CLASSES: usize = 82;
/// What stands for x in a family of odd length.
pub const ODD: usize = 255;

/// The number of a refusal and its "at".
pub type Fault = (u64, u64);

/// An input in which no fault of the table's numbers 1 to 6 was found.
pub struct Compound {
    /// The number of atoms.
    pub n: usize,
    /// The two atoms of each bond.
    pub bonds: Vec<(usize, usize)>,
    /// number[a][b] is the number of the bond between a and b.
    number: Vec<Vec<Option<usize>>>,
}

impl Compound {
    /// Whether a bond joins two atoms.
    pub fn bonded(&self, a: usize, b: usize) -> bool {
        self.bond(a, b).is_some()
    }
    /// The number of the bond between two atoms.
    pub fn bond(&self, a: usize, b: usize) -> Option<usize> {
        self.number[a][b]
    }
    /// The neighbours of each atom, the lowest-numbered first.
    pub fn neighbours(&self) -> Vec<Vec<usize>> {
        self.number.iter().map(|row| (0..self.n).filter(|b| row[*b].is_some()).collect()).collect()
    }
    /// The cyclomatic number.
    pub fn cyclomatic(&self) -> usize {
        self.bonds.len() + 1 - self.n
    }
}

/// Reads an input, or gives the first of the refusals 1 to 6.
pub fn read(n: usize, bytes: &[u8]) -> Result<Compound, Fault> {
    if n == 0 || n > 64 {
        return Err((1, 0));
    }
    if bytes.len() % 2 == 1 || bytes.len() / 2 > 96 {
        return Err((2, 0));
    }
    let bonds = read_bonds(n, bytes)?;
    if pieces(n, &bonds) != 1 {
        return Err((6, 0));
    }
    let number = numbers(n, &bonds);
    Ok(Compound { n, bonds, number })
}

/// The two atoms of each bond, or the first of the refusals 3 to 5, bond by bond.
fn read_bonds(n: usize, bytes: &[u8]) -> Result<Vec<(usize, usize)>, Fault> {
    let mut bonds: Vec<(usize, usize)> = Vec::new();
    for (k, pair) in bytes.chunks(2).enumerate() {
        let (a, b) = (pair[0] as usize, pair[1] as usize);
        if a >= n || b >= n {
            return Err((3, k as u64));
        }
        if a == b {
            return Err((4, k as u64));
        }
        if bonds.contains(&(a, b)) || bonds.contains(&(b, a)) {
            return Err((5, k as u64));
        }
        bonds.push((a, b));
    }
    Ok(bonds)
}

/// The number of pieces, by giving both ends of each bond one name.
fn pieces(n: usize, bonds: &[(usize, usize)]) -> usize {
    let mut name: Vec<usize> = (0..n).collect();
    for &(a, b) in bonds {
        let (old, new) = (name[a], name[b]);
        name.iter_mut().filter(|x| **x == old).for_each(|x| *x = new);
    }
    name.sort_unstable();
    name.dedup();
    name.len()
}

/// The number of the bond between every two atoms, either way round.
fn numbers(n: usize, bonds: &[(usize, usize)]) -> Vec<Vec<Option<usize>>> {
    let mut number = vec![vec![None; n]; n];
    for (k, &(a, b)) in bonds.iter().enumerate() {
        number[a][b] = Some(k);
        number[b][a] = Some(k);
    }
    number
}

/// The numbers in a set that is one word, k having weight 2^k, from the lowest.
pub fn numbers_in(mut set: u128) -> impl Iterator<Item = usize> {
    std::iter::from_fn(move || {
        let lowest = set.trailing_zeros() as usize;
        set &= set.wrapping_sub(1);
        (lowest < 128).then_some(lowest)
    })
}

/// A kept family as a judge finds it.
#[derive(Clone, Debug, PartialEq, Eq)]
pub struct Kept {
    /// The length of its rings.
    pub length: usize,
    /// Its top atom.
    pub r: usize,
    /// The lower of the two atoms where its paths to the top atom begin.
    pub p: usize,
    /// The higher of the two.
    pub q: usize,
    /// The atom between p and q; `ODD` if there is none.
    pub x: usize,
    /// Whether its prototype is marked for the basis.
    pub mark: bool,
    /// Any number that families of one class share and others do not.
    pub group: usize,
    /// The number of its members.
    pub size: u128,
}

/// Everything that the calls answer of a sound compound, were there room and no limit.
#[derive(Clone, Debug, PartialEq, Eq)]
pub struct Listing {
    /// The cyclomatic number.
    pub cyclomatic: u64,
    /// The number of kept families.
    pub families: u64,
    /// The number of classes.
    pub classes: u64,
    /// The total length of the basis.
    pub total: u64,
    /// The number of relevant rings.
    pub rings: u128,
    /// The size of each family.
    pub sizes: Vec<u128>,
    /// The bytes of all family rows.
    pub family_rows: Vec<u8>,
    /// The bytes of all class rows.
    pub class_rows: Vec<u8>,
}

impl Listing {
    /// The rows and numbers that belong to the kept families, given in row order.
    pub fn new(cyclomatic: usize, kept: &[Kept]) -> Listing {
        let groups = groups(kept);
        Listing {
            cyclomatic: cyclomatic as u64,
            families: kept.len() as u64,
            classes: groups.len() as u64,
            total: kept.iter().filter(|f| f.mark).map(|f| f.length as u64).sum(),
            rings: kept.iter().map(|f| f.size).sum(),
            sizes: kept.iter().map(|f| f.size).collect(),
            family_rows: kept.iter().flat_map(|f| family_row(f, &groups)).collect(),
            class_rows: groups.iter().flat_map(|g| class_row(*g, kept)).collect(),
        }
    }

    /// What to read where two listings differ: numbers, then rows.
    pub fn show(&self) -> String {
        let Listing { cyclomatic, families, classes, total, rings, .. } = self;
        let family_rows = self.family_rows.chunks(FAMILY_ROW).zip(&self.sizes);
        let family_lines: String = family_rows.map(|(row, size)| format!("  family {:?} size {}\n", row, size)).collect();
        let class_lines: String = self.class_rows.chunks(CLASS_ROW).map(|row| format!("  class {:?}\n", row)).collect();
        format!("cyclomatic={cyclomatic} families={families} classes={classes} total={total} rings={rings}\n{family_lines}{class_lines}")
    }
}

/// The group of each class; classes are numbered by their first family.
fn groups(kept: &[Kept]) -> Vec<usize> {
    let mut groups = Vec::new();
    for f in kept {
        if !groups.contains(&f.group) {
            groups.push(f.group);
        }
    }
    groups
}

fn family_row(f: &Kept, groups: &[usize]) -> [u8; FAMILY_ROW] {
    let class = groups.iter().position(|g| *g == f.group).unwrap();
    [f.length, f.r, f.p, f.q, f.x, f.mark as usize, class, 0].map(|v| v as u8)
}

fn class_row(group: usize, kept: &[Kept]) -> [u8; CLASS_ROW] {
    let of_class: Vec<&Kept> = kept.iter().filter(|f| f.group == group).collect();
    let rank = of_class.iter().filter(|f| f.mark).count();
    let count = of_class.len();
    [of_class[0].length, rank, count % 256, count / 256, (count == 1) as usize].map(|v| v as u8)
}
