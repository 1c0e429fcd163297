//! Lists the rings of one compound, lent as records: two atoms joined by three paths of three bonds each.
//!
//!     (cd crates/hatch && rt lib) && mkdir -p target
//!     rustc --edition 2021 -L native=crates/hatch/out -l static=hatch -o target/example hatch/example.rs && target/example

#[allow(dead_code)]
mod rings;

use rings::{Bond, Refusal, CLASS_BYTES, CLASS_ROW, FAMILY_BYTES, FAMILY_ROW, ODD};

fn list(atoms: usize, bonds: &[Bond]) -> Result<(), Refusal> {
    let (mut families, mut classes) = ([0; FAMILY_BYTES], [0; CLASS_BYTES]);
    let answer = rings::families_of(atoms, bonds, &mut families, &mut classes)?;
    println!("atoms={}\nbonds={}", atoms, bonds.len());
    println!("cyclomatic={}\nfamilies={}\nclasses={}", answer.cyclomatic, answer.families, answer.classes);
    println!("total={}\nrings={}", answer.total, answer.rings);
    for row in 0..answer.families as usize {
        let (_, size) = rings::family_size_of(atoms, bonds, &mut families, &mut classes, row)?;
        let f = &families[FAMILY_ROW * row..][..FAMILY_ROW];
        let x = if f[4] == ODD { "-".to_string() } else { f[4].to_string() };
        println!("family={},{},{},{},{},{},{},{}", f[0], f[1], f[2], f[3], x, f[5], f[6], size);
    }
    for (number, c) in classes.chunks(CLASS_ROW).take(answer.classes as usize).enumerate() {
        println!("class={},{},{},{},{}", number, c[0], c[1], u16::from_le_bytes([c[2], c[3]]), c[4]);
    }
    Ok(())
}

fn main() {
    let bonds = [(0, 2), (2, 3), (3, 1), (0, 4), (4, 5), (5, 1), (0, 6), (6, 7), (7, 1)].map(|(a, b)| Bond { a, b });
    if let Err(refusal) = list(8, &bonds) {
        println!("refused={}\nat={}", refusal.number(), refusal.at());
    }
}
