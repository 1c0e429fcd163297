//! Sums of bond sets by elimination: a bond set is one 128-bit word, bond k having weight 2^k.

/// The sums of the sets added so far. Each added set that is no sum of earlier ones becomes a member.
#[derive(Clone, Default)]
pub struct Span {
    /// (rest, which members sum to the rest); no two rests have the same highest bond, and the higher one comes first.
    rows: Vec<(u128, u128)>,
}

impl Span {
    /// The number of members.
    pub fn rank(&self) -> usize {
        self.rows.len()
    }

    /// What is left of a set, and the members that were taken out of it (member i has weight 2^i).
    fn reduce(&self, set: u128) -> (u128, u128) {
        let (mut rest, mut used) = (set, 0);
        for &(row, members) in &self.rows {
            if rest ^ row < rest {
                rest ^= row;
                used ^= members;
            }
        }
        (rest, used)
    }

    /// Whether a set is a sum of members.
    pub fn holds(&self, set: u128) -> bool {
        self.reduce(set).0 == 0
    }

    /// The members that sum to a set, if it is a sum.
    pub fn members(&self, set: u128) -> Option<u128> {
        let (rest, used) = self.reduce(set);
        (rest == 0).then_some(used)
    }

    /// Adds a set; tells whether it became a member.
    pub fn add(&mut self, set: u128) -> bool {
        let (rest, used) = self.reduce(set);
        if rest == 0 {
            return false;
        }
        let member = 1u128 << self.rows.len();
        self.rows.push((rest, used ^ member));
        self.rows.sort_unstable_by(|a, b| b.0.cmp(&a.0));
        true
    }

    /// Adds sets one after the other.
    pub fn add_all(&mut self, sets: impl Iterator<Item = u128>) {
        for set in sets {
            self.add(set);
        }
    }
}

/// Numbers that can be joined into groups.
pub struct Groups(Vec<usize>);

impl Groups {
    /// The numbers below a count, each a group of its own.
    pub fn new(count: usize) -> Groups {
        Groups((0..count).collect())
    }
    /// The number that stands for the group of a number.
    pub fn of(&self, i: usize) -> usize {
        if self.0[i] == i {
            i
        } else {
            self.of(self.0[i])
        }
    }
    /// Joins the groups of other numbers to the group of i.
    pub fn join(&mut self, i: usize, others: impl Iterator<Item = usize>) {
        for j in others {
            let (own, other) = (self.of(i), self.of(j));
            self.0[other] = own;
        }
    }
}
