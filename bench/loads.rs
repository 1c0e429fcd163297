//! The loads: compounds that are timed together.

use crate::inputs::{Input, Random};
use crate::molecules::{molecule, molecules, KINDS};
use crate::regular::{bipartite, c60, complete, Bonds};

/// Compounds that are timed together.
pub struct Load {
    /// What a reader knows it by.
    pub name: &'static str,
    /// The compounds.
    pub inputs: Vec<Input>,
}

impl Load {
    /// A load of one compound.
    fn one(name: &'static str, n: usize, bonds: Bonds) -> Load {
        Load { name, inputs: vec![Input::new(name, n, &bonds)] }
    }
    /// The mean over the compounds of a number that each has.
    fn mean(&self, of: impl Fn(&Input) -> usize) -> f64 {
        self.inputs.iter().map(of).sum::<usize>() as f64 / self.inputs.len() as f64
    }
    /// The mean number of atoms.
    pub fn atoms(&self) -> f64 {
        self.mean(|input| input.n)
    }
    /// The mean number of bonds.
    pub fn bonds(&self) -> f64 {
        self.mean(|input| input.bytes.len() / 2)
    }
    /// The load as the rival kit reads it: a line `load`, and a line for each compound with its atoms and bond bytes.
    fn text(&self) -> String {
        let words = |input: &Input| -> Vec<String> { input.bytes.iter().map(|byte| byte.to_string()).collect() };
        let lines: String = self.inputs.iter().map(|input| format!("{} {}\n", input.n, words(input).join(" "))).collect();
        format!("load\n{}", lines)
    }
}

/// The text of all loads.
pub fn text(loads: &[Load]) -> String {
    loads.iter().map(Load::text).collect()
}

/// The loads: molecules, compounds built like molecules, and three that are hard in different ways.
pub fn loads() -> Vec<Load> {
    vec![
        Load { name: "well-known molecules", inputs: molecules() },
        Load { name: "built like molecules", inputs: built() },
        Load::one("complete graph on 14 atoms", 14, complete(14)),
        Load::one("C60", 60, c60()),
        Load::one("8 atoms bonded to 12 atoms", 20, bipartite(8, 12)),
    ]
}

fn built() -> Vec<Input> {
    let mut random = Random(30);
    let mut built: Vec<Input> = Vec::new();
    while built.len() < 400 {
        let kind = KINDS[built.len() % KINDS.len()];
        let atoms = random.within(26, 36);
        let compound = molecule(&mut random, kind, atoms);
        // Molecules of this size seldom have more rings.
        if compound.bytes.len() / 2 < compound.n + 8 {
            built.push(compound);
        }
    }
    built
}
