//! The table of figures as text.

use crate::figures::{Figures, Results};
use crate::loads::Load;
use crate::stack::{Depths, CALLS};

/// The table, with a line for each load and the words that explain it.
pub fn table(results: &Results) -> String {
    let last = results.names[results.names.len() - 1];
    let engines: String = results.names.iter().map(|name| format!("{:>16}{:>12}", format!("{} us", name), "rings")).collect();
    let head = format!("{:30}{:>10}{:>7}{:>7}{:>25}{}{:>10}\n", "load", "compounds", "atoms", "bonds", "stack", engines, "times");
    let lines: String = results.rows().map(|(load, figures, stacks)| line(load, figures, stacks)).collect();
    format!(
        "{}{}us: microseconds of processor time a compound, median of {} rounds\n\
         stack: bytes at the most, for {}; times: {} over archive\n\
         all totals of relevant rings agree: {}\n",
        head, lines, results.rounds, CALLS.join(", "), last, if results.agree() { "yes" } else { "NO" }
    )
}

fn line(load: &Load, figures: &[Figures], stacks: &Depths) -> String {
    let engines: String = figures.iter().map(|f| format!("{:>16.2}{:>12}", f.median(), f.rings)).collect();
    let times = figures[figures.len() - 1].median() / figures[0].median();
    let stacks = stacks.map(|depth| depth.to_string()).join(" ");
    let (compounds, atoms, bonds) = (load.inputs.len(), load.atoms(), load.bonds());
    format!("{:30}{:>10}{:>7.1}{:>7.1}{:>25}{}{:>10.1}\n", load.name, compounds, atoms, bonds, stacks, engines, times)
}
