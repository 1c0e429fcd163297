//! The stack that one call takes, by painting: the free stack below is filled with a pattern, the call is made, and the lowest
//! word that has changed tells how far down the call went.

use crate::compound::{CLASSES, CLASS_ROW, FAMILIES, FAMILY_ROW};
use crate::inputs::Input;
use crate::rings::reply::{self, Reply};
use crate::rings::Bond;

/// The calls that are measured, in the order of their depths.
pub const CALLS: [&str; 4] = ["rings_families", "rings_family_size", "rings_families_of", "rings_family_size_of"];

/// A depth of stack for each of the calls.
pub type Depths = [usize; CALLS.len()];

const PATTERN: u64 = 0x5AA5_C33C_0FF0_9669;
/// How far down is painted.
const DEEP: usize = 64 * 1024;
/// How near to the painter's own frame.
const NEAR: usize = 512;

/// How many words are painted.
const WORDS: usize = (DEEP - NEAR) / 8;

// Why the two below are sound: the words are below all frames in use but above the end of the thread's stack, and no frame of
// theirs reaches down to them.

fn paint(low: *mut u64) {
    for i in 0..WORDS {
        // SAFETY: see above.
        unsafe { low.add(i).write_volatile(PATTERN) };
    }
}

/// How many words, from the lowest, are as they were painted.
fn left_alone(low: *const u64) -> usize {
    // SAFETY: see above.
    (0..WORDS).take_while(|i| unsafe { low.add(*i).read_volatile() } == PATTERN).count()
}

/// Bytes from the stack pointer of the caller to the lowest word that the call wrote.
#[inline(never)]
fn depth(mut call: impl FnMut() -> Reply) -> usize {
    // Once beforehand, so that nothing is resolved or loaded for the first time while it is watched.
    call();
    let here: usize;
    // SAFETY: the stack pointer is only read.
    unsafe { std::arch::asm!("mov {}, rsp", out(reg) here) };
    let low = (here - DEEP) as *mut u64;
    paint(low);
    call();
    DEEP - 8 * left_alone(low)
}

/// The depth of each call on a compound.
fn of_calls(input: &Input) -> Depths {
    let records: Vec<Bond> = input.bytes.chunks(2).map(|w| Bond { a: w[0], b: w[1] }).collect();
    let (mut f, mut c) = (vec![0u8; FAMILY_ROW * FAMILIES], vec![0u8; CLASS_ROW * CLASSES]);
    [
        depth(|| reply::families(input.n, &input.bytes, &mut f, &mut c)),
        depth(|| reply::family_size(input.n, &input.bytes, &mut f, &mut c, 0)),
        depth(|| reply::families_of(input.n, &records, &mut f, &mut c)),
        depth(|| reply::family_size_of(input.n, &records, &mut f, &mut c, 0)),
    ]
}

/// The greatest depth of each call over some compounds.
pub fn greatest(inputs: &[Input]) -> Depths {
    inputs.iter().map(of_calls).fold([0; CALLS.len()], |a, b| std::array::from_fn(|i| a[i].max(b[i])))
}
