//! An input as the archive takes it, and the random generator that the inputs are made with: they are the same in every run.

/// A compound, sound or not, as it is lent to the archive.
#[derive(Clone, Debug)]
pub struct Input {
    /// What a reader knows it by.
    pub name: String,
    /// The number of atoms.
    pub n: usize,
    /// The bond bytes: two atom numbers a bond.
    pub bytes: Vec<u8>,
}

impl Input {
    /// The input whose bonds join these pairs of atoms.
    pub fn new(name: impl Into<String>, n: usize, bonds: &[(usize, usize)]) -> Input {
        Input { name: name.into(), n, bytes: bonds.iter().flat_map(|&(a, b)| [a as u8, b as u8]).collect() }
    }
    /// The two atoms of each bond.
    pub fn bonds(&self) -> Vec<(usize, usize)> {
        self.bytes.chunks(2).map(|w| (w[0] as usize, w[1] as usize)).collect()
    }
    /// The same compound with its atoms numbered anew, its bonds in another order and some of them turned round.
    pub fn renumbered(&self, random: &mut Random) -> Input {
        let new = random.order(self.n);
        let mut bonds: Vec<(usize, usize)> = self.bonds().iter().map(|&(a, b)| (new[a], new[b])).collect();
        random.shuffle(&mut bonds);
        for bond in bonds.iter_mut() {
            if random.below(2) == 1 {
                *bond = (bond.1, bond.0);
            }
        }
        Input::new(format!("{} renumbered", self.name), self.n, &bonds)
    }
}

/// A small random generator (SplitMix64) with a fixed start.
pub struct Random(pub u64);

impl Random {
    /// The next 64 bits.
    pub fn next(&mut self) -> u64 {
        self.0 = self.0.wrapping_add(0x9E37_79B9_7F4A_7C15);
        let mut z = self.0;
        z = (z ^ (z >> 30)).wrapping_mul(0xBF58_476D_1CE4_E5B9);
        z = (z ^ (z >> 27)).wrapping_mul(0x94D0_49BB_1331_11EB);
        z ^ (z >> 31)
    }
    /// A number from 0 to below `end`.
    pub fn below(&mut self, end: usize) -> usize {
        (self.next() % end as u64) as usize
    }
    /// A number from `low` to `high`, both possible.
    pub fn within(&mut self, low: usize, high: usize) -> usize {
        low + self.below(high - low + 1)
    }
    /// Puts a list into a random order.
    pub fn shuffle<T>(&mut self, list: &mut [T]) {
        for i in (1..list.len()).rev() {
            let j = self.below(i + 1);
            list.swap(i, j);
        }
    }
    /// The numbers below `n` in a random order.
    pub fn order(&mut self, n: usize) -> Vec<usize> {
        let mut list: Vec<usize> = (0..n).collect();
        self.shuffle(&mut list);
        list
    }
}

/// Every number of the first list with every number of the second.
pub fn pairs<A, B>(first: A, second: B) -> impl Iterator<Item = (usize, usize)>
where
    A: IntoIterator<Item = usize>,
    B: IntoIterator<Item = usize> + Clone,
{
    first.into_iter().flat_map(move |a| second.clone().into_iter().map(move |b| (a, b)))
}

/// A random tree on n atoms with as many further bonds as fit, up to m bonds in all.
pub fn random(random: &mut Random, n: usize, m: usize) -> Input {
    let order = random.order(n);
    let mut bonds: Vec<(usize, usize)> = (1..n).map(|i| (order[i], order[random.below(i)])).collect();
    let wanted = m.max(n - 1).min(n * (n - 1) / 2);
    while bonds.len() < wanted {
        let (a, b) = (random.below(n), random.below(n));
        if a != b && !bonds.contains(&(a, b)) && !bonds.contains(&(b, a)) {
            bonds.push((a, b));
        }
    }
    random.shuffle(&mut bonds);
    Input::new(format!("random {} {}", n, bonds.len()), n, &bonds)
}
