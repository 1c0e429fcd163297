//! The judges together: each input gets one listing or one refusal, on which they must agree.

use crate::cases::bench_set;
use crate::compound::{self, Compound, Fault, Listing, FAMILY_ROW};
use crate::inputs::Input;
use crate::{by_rings, literal, plain};

/// The listing of an input, or its refusal by the numbers 1 to 6.
pub type Judged = Result<Listing, Fault>;

/// How many inputs were judged in each way; the plain judge takes all that are not refused.
#[derive(Clone, Copy, Default)]
pub struct Judges {
    /// By the literal judge.
    pub literal: usize,
    /// By the literal judge, which also listed all minimum bases to find the classes.
    pub by_bases: usize,
    /// By the judge that goes from the rings up.
    pub by_rings: usize,
}

/// The listing on which the judges agree, or the refusal; the text says where they do not.
pub fn judge(input: &Input, counts: &mut Judges) -> Result<Judged, String> {
    let c = match compound::read(input.n, &input.bytes) {
        Err(fault) => return Ok(Err(fault)),
        Ok(c) => c,
    };
    let l = plain::listing(&c);
    // All sums of six atoms' at most 15 bonds can be written out.
    if c.n <= 6 {
        check_literal(&c, &l, counts)?;
    }
    check_by_rings(&c, &l, counts)?;
    check_rows(&l)?;
    Ok(Ok(l))
}

fn differ(l: &Listing, who: &str, other: &Listing) -> String {
    format!("the judges differ:\nplain: {}{}: {}", l.show(), who, other.show())
}

fn check_literal(c: &Compound, l: &Listing, counts: &mut Judges) -> Result<(), String> {
    let (other, with_classes) = literal::listing(c).map_err(|e| format!("literal judge: {}", e))?;
    counts.literal += 1;
    counts.by_bases += with_classes as usize;
    // Without its classes a listing has the same rows but for their last two bytes.
    let bare = |l: &Listing| -> Vec<u8> { l.family_rows.chunks(FAMILY_ROW).flat_map(|row| row[..6].to_vec()).collect() };
    let same = if with_classes { other == *l } else { (other.total, &other.sizes, bare(&other)) == (l.total, &l.sizes, bare(l)) };
    if same {
        Ok(())
    } else {
        Err(differ(l, "literal", &other))
    }
}

fn check_by_rings(c: &Compound, l: &Listing, counts: &mut Judges) -> Result<(), String> {
    let Some(other) = by_rings::listing(c).map_err(|e| format!("judge by rings: {}", e))? else { return Ok(()) };
    counts.by_rings += 1;
    if other == *l {
        Ok(())
    } else {
        Err(differ(l, "by rings", &other))
    }
}

/// Rows must be in order, each once, and the sizes must sum to the rings.
fn check_rows(l: &Listing) -> Result<(), String> {
    let rows: Vec<&[u8]> = l.family_rows.chunks(FAMILY_ROW).collect();
    let key = |row: &[u8]| [row[0], row[1], row[4], row[2], row[3]];
    if rows.windows(2).any(|w| key(w[0]) >= key(w[1])) || l.sizes.iter().sum::<u128>() != l.rings {
        return Err(format!("rows out of order, or sizes that do not sum to the rings: {}", l.show()));
    }
    Ok(())
}

/// What the scope document states of the bench set must be what the judges find.
pub fn check_bench_set() -> Result<(), String> {
    for (input, [families, classes, total]) in bench_set() {
        let l = judge(&input, &mut Judges::default())?.map_err(|_| format!("bench case {} is refused", input.name))?;
        let other_rows = stated_rows(&input.name).is_some_and(|rows| l.family_rows != rows);
        if (l.families, l.classes, l.total) != (families, classes, total) || other_rows {
            return Err(format!("bench case {}: {}", input.name, l.show()));
        }
    }
    Ok(())
}

/// The family rows of the bench cases of which the scope document states them.
fn stated_rows(name: &str) -> Option<&'static [u8]> {
    match name {
        "B" => Some(&[3, 2, 0, 1, 255, 1, 0, 0]),
        "C" => Some(&[4, 3, 0, 2, 1, 1, 0, 0]),
        "F" => Some(&[6, 5, 0, 3, 2, 1, 0, 0, 6, 7, 0, 3, 2, 1, 0, 0, 6, 7, 0, 5, 4, 0, 0, 0]),
        "K" => Some(&[4, 4, 2, 3, 1, 1, 0, 0, 4, 8, 6, 7, 5, 1, 1, 0, 8, 9, 4, 5, 0, 1, 2, 0]),
        _ => None,
    }
}
