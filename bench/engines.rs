//! The engines that are timed: the archive, the comparer's plain engine, and the rival kit in its own process.

use crate::compound::{self, CLASSES, CLASS_ROW, FAMILIES, FAMILY_ROW};
use crate::loads::Load;
use crate::plain;
use crate::rings::reply;
use std::io::{BufRead, BufReader, Write};
use std::process::{Child, ChildStdin, ChildStdout, Command, Stdio};

#[repr(C)]
struct Time {
    seconds: i64,
    nanoseconds: i64,
}

extern "C" {
    fn clock_gettime(clock: i32, time: *mut Time) -> i32;
}

/// Processor time of this thread in nanoseconds.
fn now() -> u64 {
    const THREAD: i32 = 3;
    let mut time = Time { seconds: 0, nanoseconds: 0 };
    // SAFETY: the call writes one struct of this layout.
    assert_eq!(unsafe { clock_gettime(THREAD, &mut time) }, 0);
    time.seconds as u64 * 1_000_000_000 + time.nanoseconds as u64
}

/// The rival kit in its own process.
struct Kit {
    child: Child,
    to: ChildStdin,
    from: BufReader<ChildStdout>,
}

impl Kit {
    fn start(command: &[String], loads: &str) -> Option<Kit> {
        let (program, rest) = command.split_first()?;
        let mut child = Command::new(program).args(rest).arg(loads).stdin(Stdio::piped()).stdout(Stdio::piped()).spawn().ok()?;
        let (to, from) = (child.stdin.take()?, BufReader::new(child.stdout.take()?));
        Some(Kit { child, to, from })
    }
    fn run(&mut self, load: usize, times: u64) -> Run {
        writeln!(self.to, "{} {}", load, times).unwrap();
        let mut line = String::new();
        self.from.read_line(&mut line).unwrap();
        let numbers: Vec<u64> = line.split_whitespace().map(|w| w.parse().unwrap()).collect();
        Run { nanoseconds: numbers[0], rings: numbers[1] }
    }
}

/// One engine going through a load some times.
pub struct Run {
    /// The time for all of it.
    pub nanoseconds: u64,
    /// The relevant rings of the load.
    pub rings: u64,
}

fn timed(times: u64, once: impl FnMut() -> u64) -> Run {
    let start = now();
    let rings: u64 = std::iter::repeat_with(once).take(times as usize).sum();
    Run { nanoseconds: now() - start, rings: rings / times }
}

/// The relevant rings of a load by the archive: one full call a compound, with the buffers that the listing program lends.
fn by_archive(load: &Load, family_rows: &mut [u8], class_rows: &mut [u8]) -> u64 {
    load.inputs.iter().map(|i| reply::families(i.n, &i.bytes, family_rows, class_rows).rings).sum()
}

/// The same by the comparer's plain engine.
fn by_plain(load: &Load) -> u64 {
    load.inputs.iter().map(|i| plain::listing(&compound::read(i.n, &i.bytes).ok().unwrap()).rings as u64).sum()
}

/// All engines, the buffers of the archive, and the loads.
pub struct Engines<'a> {
    loads: &'a [Load],
    family_rows: Vec<u8>,
    class_rows: Vec<u8>,
    kit: Option<Kit>,
}

impl<'a> Engines<'a> {
    /// The engines; the kit, if there is a command for it, reads the loads from a file.
    pub fn start(loads: &'a [Load], kit: &[String], file: &str) -> Engines<'a> {
        let (family_rows, class_rows) = (vec![0; FAMILY_ROW * FAMILIES], vec![0; CLASS_ROW * CLASSES]);
        Engines { loads, family_rows, class_rows, kit: Kit::start(kit, file) }
    }
    /// What each engine is called; the archive comes first.
    pub fn names(&self) -> Vec<&'static str> {
        ["archive", "plain engine"].into_iter().chain(self.kit.as_ref().map(|_| "CDK")).collect()
    }
    /// An engine goes through a load some times.
    pub fn run(&mut self, engine: usize, load: usize, times: u64) -> Run {
        let Engines { loads, family_rows, class_rows, kit } = self;
        match engine {
            0 => timed(times, || by_archive(&loads[load], family_rows, class_rows)),
            1 => timed(times, || by_plain(&loads[load])),
            _ => kit.as_mut().unwrap().run(load, times),
        }
    }
    /// Ends the kit's process.
    pub fn stop(self) {
        if let Some(mut kit) = self.kit {
            drop(kit.to);
            kit.child.wait().unwrap();
        }
    }
}
