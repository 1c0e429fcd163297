//! What a run has found.

use crate::loads::Load;
use crate::stack::Depths;

/// What was found for one engine on one load.
#[derive(Clone, Default)]
pub struct Figures {
    /// Microseconds a compound, one for each round.
    pub micros: Vec<f64>,
    /// The relevant rings of the load.
    pub rings: u64,
}

impl Figures {
    /// The median of the microseconds.
    pub fn median(&self) -> f64 {
        let mut sorted = self.micros.clone();
        sorted.sort_by(|a, b| a.partial_cmp(b).unwrap());
        sorted[sorted.len() / 2]
    }
}

/// What was found for all engines on all loads.
pub struct Results<'a> {
    /// The names of the engines, the archive first.
    pub names: Vec<&'static str>,
    /// The loads.
    pub loads: &'a [Load],
    /// figures[load][engine].
    pub figures: Vec<Vec<Figures>>,
    /// The greatest stack of each call, for each load.
    pub stacks: Vec<Depths>,
    /// The number of rounds.
    pub rounds: usize,
}

impl Results<'_> {
    /// Each load with the figures of the engines and its stacks.
    pub fn rows(&self) -> impl Iterator<Item = (&Load, &[Figures], &Depths)> {
        self.loads.iter().zip(&self.figures).zip(&self.stacks).map(|((load, figures), stacks)| (load, &figures[..], stacks))
    }
    /// Whether all engines find the same number of relevant rings for each load.
    pub fn agree(&self) -> bool {
        self.figures.iter().all(|figures| figures.iter().all(|f| f.rings == figures[0].rings))
    }
}
