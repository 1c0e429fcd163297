//! Times the archive beside rivals on the same loads in the same run, and measures the stack of one call.
//!
//! Arguments: the file to write the loads to, the file to write the page to, and the command of the rival kit (none: it is left
//! out). Rounds go through all loads and engines in turn, so that a disturbance meets all of them; medians are shown. Times are
//! processor time of the calling thread: what else runs on the computer is not counted, nor are the kit's helping threads.

// Of the files that are shared with the comparer not all is needed here.
#[allow(dead_code)]
#[path = "../tests/compound.rs"]
mod compound;
mod engines;
mod figures;
#[allow(dead_code)]
#[path = "../tests/inputs.rs"]
mod inputs;
mod loads;
#[path = "../tests/molecules.rs"]
mod molecules;
mod page;
#[path = "../tests/plain.rs"]
mod plain;
#[allow(dead_code)]
#[path = "../tests/regular.rs"]
mod regular;
#[allow(dead_code)]
#[path = "../hatch/rings.rs"]
mod rings;
#[path = "../tests/span.rs"]
mod span;
mod stack;
mod table;

use engines::Engines;
use figures::{Figures, Results};
use inputs::pairs;

/// Rounds through all loads and engines.
const ROUNDS: usize = 31;
/// About how long each engine gets for each load of a round.
const ROUND_NANOSECONDS: u64 = 20_000_000;
/// How long each engine runs each load before the rounds.
const WARM_NANOSECONDS: u64 = 1_500_000_000;

/// Warms an engine up for a load, and finds how often it goes through it in one round.
fn warm(engines: &mut Engines, engine: usize, load: usize) -> u64 {
    let (mut times, mut spent) = (1, 0);
    while spent < WARM_NANOSECONDS {
        let nanoseconds = engines.run(engine, load, times).nanoseconds.max(1);
        spent += nanoseconds.max(ROUND_NANOSECONDS / 4);
        times = (times * ROUND_NANOSECONDS / nanoseconds).max(1);
    }
    times
}

/// One round: each engine goes through each load as often as its times say.
fn round(engines: &mut Engines, times: &[Vec<u64>], results: &mut Results) {
    for (load, engine) in pairs(0..results.loads.len(), 0..times.len()) {
        let times = times[engine][load];
        let run = engines.run(engine, load, times);
        let compounds = times * results.loads[load].inputs.len() as u64;
        let figures = &mut results.figures[load][engine];
        figures.micros.push(run.nanoseconds as f64 / 1000.0 / compounds as f64);
        figures.rings = run.rings;
    }
}

fn main() {
    let arguments: Vec<String> = std::env::args().collect();
    let loads = loads::loads();
    std::fs::write(&arguments[1], loads::text(&loads)).unwrap();
    let mut engines = Engines::start(&loads, &arguments[3..], &arguments[1]);
    let names = engines.names();
    let times: Vec<Vec<u64>> =
        (0..names.len()).map(|engine| (0..loads.len()).map(|load| warm(&mut engines, engine, load)).collect()).collect();
    let figures = vec![vec![Figures::default(); names.len()]; loads.len()];
    let mut results = Results { names, loads: &loads, figures, stacks: Vec::new(), rounds: ROUNDS };
    for _ in 0..ROUNDS {
        round(&mut engines, &times, &mut results);
    }
    results.stacks = loads.iter().map(|load| stack::greatest(&load.inputs)).collect();
    engines.stop();
    print!("{}", table::table(&results));
    std::fs::write(&arguments[2], page::page(&results)).unwrap();
    println!("page: {}", arguments[2]);
    std::process::exit(!results.agree() as i32);
}
