//! The page of figures: one file with its style and drawing inside.

use crate::figures::{Figures, Results};
use crate::loads::Load;
use crate::stack::{Depths, CALLS};

const COLOURS: [&str; 3] = ["#1b6ca8", "#9aa5b1", "#d98e04"];

/// Where the bars begin, in the drawing's own units.
const LEFT: f64 = 230.0;
/// How long the scale is.
const WIDTH: f64 = 560.0;
/// How far apart the bars of a load are.
const BAR: f64 = 18.0;

/// The drawing's measures: the scale goes by powers of ten, so that a microsecond and a millisecond can stand on one page.
struct Scale {
    /// The lowest power of ten.
    low: f64,
    /// The highest.
    high: f64,
    /// The height of the bars of one load with the space below.
    group: f64,
    height: f64,
}

impl Scale {
    fn new(results: &Results) -> Scale {
        let all: Vec<f64> = results.figures.iter().flatten().map(|f| f.median().log10()).collect();
        let low = (all.iter().copied().fold(f64::MAX, f64::min) - 0.3).floor();
        let high = all.iter().copied().fold(f64::MIN, f64::max).ceil().max(low + 1.0);
        let group = BAR * results.names.len() as f64 + 22.0;
        Scale { low, high, group, height: group * results.loads.len() as f64 + 30.0 }
    }

    fn place(&self, power: f64) -> f64 {
        LEFT + WIDTH * (power - self.low) / (self.high - self.low)
    }

    fn tick(&self, power: f64) -> String {
        format!(
            "<line x1=\"{0:.1}\" x2=\"{0:.1}\" y1=\"0\" y2=\"{1:.0}\" class=\"scale\"/>\
             <text x=\"{0:.1}\" y=\"{2:.0}\" class=\"tick\">{3} µs</text>\n",
            self.place(power), self.height - 24.0, self.height - 8.0, 10f64.powf(power)
        )
    }

    /// The bar of an engine, and what it stands for.
    fn bar(&self, y: f64, colour: &str, name: &str, figures: &Figures) -> String {
        let end = self.place(figures.median().log10()).max(LEFT + 2.0);
        format!(
            "<rect x=\"{:.0}\" y=\"{:.1}\" width=\"{:.1}\" height=\"{:.0}\" fill=\"{}\"/><text x=\"{:.1}\" y=\"{:.1}\">{} {:.2}</text>\n",
            LEFT, y, end - LEFT, BAR - 3.0, colour, end + 6.0, y + 12.0, name, figures.median()
        )
    }

    /// The bars of the load with this number, one below the other.
    fn bars(&self, i: usize, results: &Results) -> String {
        let top = self.group * i as f64 + 8.0;
        let (y, name) = (top + self.group / 2.0 - 6.0, results.loads[i].name);
        let of_engines = results.figures[i].iter().zip(&results.names).enumerate();
        let bars: String = of_engines.map(|(e, (f, name))| self.bar(top + BAR * e as f64, COLOURS[e], name, f)).collect();
        format!("<text x=\"{:.0}\" y=\"{:.0}\" class=\"load\">{}</text>\n{}", LEFT - 12.0, y, name, bars)
    }
}

fn drawing(results: &Results) -> String {
    let scale = Scale::new(results);
    let ticks: String = (scale.low as i32..=scale.high as i32).map(|power| scale.tick(power as f64)).collect();
    let bars: String = (0..results.loads.len()).map(|i| scale.bars(i, results)).collect();
    let head = format!("<svg viewBox=\"0 0 900 {:.0}\" role=\"img\" aria-label=\"Microseconds a compound\">\n", scale.height);
    format!("{}{}{}</svg>\n", head, ticks, bars)
}

/// The head of the table: for each call its stack, for each engine its figures, for each rival how it compares.
fn head(names: &[&str]) -> String {
    let stacks: String = CALLS.iter().map(|call| format!("<th>stack, {}</th>", call)).collect();
    let engines: String = names.iter().map(|name| format!("<th>{}, µs</th><th>its rings</th>", name)).collect();
    let rivals: String = names[1..].iter().map(|name| format!("<th>{} / {}</th>", name, names[0])).collect();
    format!("<tr><th>load</th><th>compounds</th><th>atoms</th><th>bonds</th>{}{}{}</tr>\n", stacks, engines, rivals)
}

fn row(load: &Load, figures: &[Figures], stacks: &Depths) -> String {
    let of_load = format!("<td>{}</td><td>{:.1}</td><td>{:.1}</td>", load.inputs.len(), load.atoms(), load.bonds());
    let stacks: String = stacks.iter().map(|depth| format!("<td>{}</td>", depth)).collect();
    let engines: String = figures.iter().map(|f| format!("<td>{:.2}</td><td>{}</td>", f.median(), f.rings)).collect();
    let rivals: String = figures[1..].iter().map(|f| format!("<td>{:.1}</td>", f.median() / figures[0].median())).collect();
    format!("<tr><th>{}</th>{}{}{}{}</tr>\n", load.name, of_load, stacks, engines, rivals)
}

/// The whole page.
pub fn page(results: &Results) -> String {
    let rows: String = results.rows().map(|(load, figures, stacks)| row(load, figures, stacks)).collect();
    format!(
        "<!DOCTYPE html>\n<html lang=\"en\"><head><meta charset=\"utf-8\"><title>Ring engine: time and stack</title>\n<style>\n\
         body{{font:16px/1.5 system-ui,sans-serif;max-width:70rem;margin:2rem auto;padding:0 1rem;color:#1d2733}}\n\
         table{{border-collapse:collapse;font-size:14px}} th,td{{padding:.3rem .6rem;text-align:right;border-bottom:1px solid #dde3ea}}\n\
         th:first-child{{text-align:left}} svg{{width:100%;font:12px system-ui,sans-serif}}\n\
         .scale{{stroke:#e3e8ee}} .tick,.load{{fill:#56616d}}\n\
         .tick{{text-anchor:middle}} .load{{text-anchor:end}}\n</style></head><body>\n\
         <h1>Ring engine: time and stack</h1>\n\
         <p>Microseconds of processor time a compound, the median of {} rounds that went through all loads and engines in turn. The\n\
         archive's call gives all families, the basis and the classes; the plain engine gives the same by Horton's rings; CDK, where\n\
         it is installed, is the Chemistry Development Kit's relevant cycles alone, warm, ring system by ring system. The totals of\n\
         relevant rings {}. The scale goes by powers of ten.</p>\n{}\
         <table>{}{}</table>\n\
         <p>Stack: bytes from the caller's stack pointer to the lowest word written, at the most.</p>\n</body></html>\n",
        results.rounds, if results.agree() { "agree" } else { "DO NOT AGREE" }, drawing(results), head(&results.names), rows
    )
}
