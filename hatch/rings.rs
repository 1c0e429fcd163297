//! Safe calls on the ring engine's archive: one compound in, its ring families, one minimum cycle basis and its classes of
//! rings out.
//!
//! A compound has `n` atoms, numbered from 0, and its bonds, numbered from 0 in the order given. Bonds are lent as bytes, two
//! atom numbers each ([`families`], [`family_size`]), or as records ([`families_of`], [`family_size_of`]); the answer is the
//! same. Family rows and class rows are written into two lent buffers; `rings.h` says what each of their bytes means.
//!
//! Nothing needs to be checked before a call. Every input gets the full answer or one [`Refusal`], and a refused call leaves
//! both buffers as they were.
//!
//! The module allocates nothing and uses `core` alone (Rust 1.82 or later). `rt lib` in crates/hatch makes the archive; a program that has this file as a module is linked with
//! `-L native=crates/hatch/out -l static=hatch`.
//!
//! # Examples
//!
//! Benzene has one ring:
//!
//! ```
//! use rings::{families_of, Bond, CLASS_BYTES, FAMILY_BYTES, FAMILY_ROW};
//!
//! let bonds: Vec<Bond> = (0..6).map(|a| Bond { a, b: (a + 1) % 6 }).collect();
//! let (mut family_rows, mut class_rows) = ([0; FAMILY_BYTES], [0; CLASS_BYTES]);
//! let answer = families_of(6, &bonds, &mut family_rows, &mut class_rows)?;
//! assert_eq!((answer.families, answer.total), (1, 6));
//! assert_eq!(family_rows[..FAMILY_ROW], [6, 5, 1, 3, 2, 1, 0, 0]);
//! # Ok::<(), rings::Refusal>(())
//! ```

/// The bytes of a family row.
pub const FAMILY_ROW: usize = 8;
/// The bytes of a class row.
pub const CLASS_ROW: usize = 5;
/// Room for the most family rows that are ever written.
pub const FAMILY_BYTES: usize = 4096 * FAMILY_ROW;
/// Room for the most class rows that are ever written.
pub const CLASS_BYTES: usize = 82 * CLASS_ROW;
/// The byte for x in a family of odd length.
pub const ODD: u8 = 255;

/// A bond as a record of the numbers of its two atoms; either may come first.
#[repr(C)]
#[derive(Clone, Copy, Debug, PartialEq, Eq)]
pub struct Bond {
    /// The number of one atom.
    pub a: u8,
    /// The number of the other.
    pub b: u8,
}

/// The numbers of the full answer; the rows are in the lent buffers.
#[derive(Clone, Copy, Debug, PartialEq, Eq)]
pub struct Answer {
    /// Bonds - atoms + 1: the number of rings in the basis.
    pub cyclomatic: u64,
    /// The number of family rows written.
    pub families: u64,
    /// The number of class rows written.
    pub classes: u64,
    /// The total length of the basis.
    pub total: u64,
    /// The number of relevant rings: the sum of the sizes of all families.
    pub rings: u64,
}

/// Why a call is refused. Each is given in exactly the stated case when none above it holds; [`NoAtom`](Self::NoAtom),
/// [`Loop`](Self::Loop) and [`Again`](Self::Again) are tried bond by bond.
#[derive(Clone, Copy, Debug, PartialEq, Eq)]
pub enum Refusal {
    /// 1: there is no atom, or there are more than 64.
    WrongAtoms,
    /// 2: the bond bytes are odd in number, or there are more than 96 bonds.
    WrongBytes,
    /// 3: this bond names an atom that is not there.
    NoAtom {
        /// The number of the bond.
        bond: u64,
    },
    /// 4: this bond joins an atom to itself.
    Loop {
        /// The number of the bond.
        bond: u64,
    },
    /// 5: an earlier bond joins the same two atoms as this one, either way round.
    Again {
        /// The number of the later bond.
        bond: u64,
    },
    /// 6: the compound is in more than one piece.
    Pieces,
    /// 7: there are more families than family rows lent, or than 4,096.
    FewRows {
        /// The number of families; above 4,096 no buffer is enough.
        needed: u64,
    },
    /// 8: there are more classes than class rows lent.
    FewClassRows {
        /// The number of classes.
        needed: u64,
    },
    /// 9: there are more than `u64::MAX` rings.
    ManyRings,
}

impl Refusal {
    /// The number of the refusal, 1 to 9.
    pub fn number(self) -> u64 {
        match self {
            Refusal::WrongAtoms => 1,
            Refusal::WrongBytes => 2,
            Refusal::NoAtom { .. } => 3,
            Refusal::Loop { .. } => 4,
            Refusal::Again { .. } => 5,
            Refusal::Pieces => 6,
            Refusal::FewRows { .. } => 7,
            Refusal::FewClassRows { .. } => 8,
            Refusal::ManyRings => 9,
        }
    }

    /// What the refusal names: a bond (3 to 5), or how many rows are needed (7, 8); 0 otherwise.
    pub fn at(self) -> u64 {
        match self {
            Refusal::NoAtom { bond } | Refusal::Loop { bond } | Refusal::Again { bond } => bond,
            Refusal::FewRows { needed } | Refusal::FewClassRows { needed } => needed,
            Refusal::WrongAtoms | Refusal::WrongBytes | Refusal::Pieces | Refusal::ManyRings => 0,
        }
    }
}

impl core::fmt::Display for Refusal {
    fn fmt(&self, f: &mut core::fmt::Formatter<'_>) -> core::fmt::Result {
        write!(f, "refused={} at={}", self.number(), self.at())
    }
}

impl core::error::Error for Refusal {}

/// The ring families of a compound of `n` atoms, whose bonds are lent as two atom numbers each.
///
/// # Errors
///
/// A [`Refusal`] if the input is no compound that the engine works on, or does not fit. Both buffers are then as they were.
pub fn families(n: usize, bonds: &[u8], family_rows: &mut [u8], class_rows: &mut [u8]) -> Result<Answer, Refusal> {
    reply::families(n, bonds, family_rows, class_rows).answer()
}

/// The same as [`families`], and the size of the family of one row, counted from 0; past the last row the size is 0.
///
/// # Errors
///
/// As [`families`].
pub fn family_size(
    n: usize,
    bonds: &[u8],
    family_rows: &mut [u8],
    class_rows: &mut [u8],
    row: usize,
) -> Result<(Answer, u64), Refusal> {
    let reply = reply::family_size(n, bonds, family_rows, class_rows, row);
    Ok((reply.answer()?, reply.size))
}

/// The same as [`families`], of bonds that are lent as records.
///
/// # Errors
///
/// As [`families`]; more than 96 records are [`Refusal::WrongBytes`].
pub fn families_of(n: usize, bonds: &[Bond], family_rows: &mut [u8], class_rows: &mut [u8]) -> Result<Answer, Refusal> {
    reply::families_of(n, bonds, family_rows, class_rows).answer()
}

/// The same as [`family_size`], of bonds that are lent as records.
///
/// # Errors
///
/// As [`families_of`].
pub fn family_size_of(
    n: usize,
    bonds: &[Bond],
    family_rows: &mut [u8],
    class_rows: &mut [u8],
    row: usize,
) -> Result<(Answer, u64), Refusal> {
    let reply = reply::family_size_of(n, bonds, family_rows, class_rows, row);
    Ok((reply.answer()?, reply.size))
}

/// The calls as C has them: one struct for the answer and the refusal.
pub mod reply {
    use super::{Answer, Bond, Refusal};

    /// What a call answers: `rings_reply` of `rings.h`. In a refusal all but `refusal` and `at` are 0.
    #[repr(C)]
    #[derive(Clone, Copy, Debug, Default, PartialEq, Eq)]
    pub struct Reply {
        /// 0, or the number of the refusal.
        pub refusal: u64,
        /// What the refusal names.
        pub at: u64,
        /// [`Answer::cyclomatic`].
        pub cyclomatic: u64,
        /// [`Answer::families`].
        pub families: u64,
        /// [`Answer::classes`].
        pub classes: u64,
        /// [`Answer::total`].
        pub total: u64,
        /// [`Answer::rings`].
        pub rings: u64,
        /// The size of the family asked for; 0 past the last row, and in a call that asks for none.
        pub size: u64,
    }

    impl Reply {
        /// The reply taken apart.
        ///
        /// # Errors
        ///
        /// The refusal, if it is one.
        pub fn answer(self) -> Result<Answer, Refusal> {
            let Reply { refusal, at, cyclomatic, families, classes, total, rings, size: _ } = self;
            Err(match refusal {
                0 => return Ok(Answer { cyclomatic, families, classes, total, rings }),
                1 => Refusal::WrongAtoms,
                2 => Refusal::WrongBytes,
                3 => Refusal::NoAtom { bond: at },
                4 => Refusal::Loop { bond: at },
                5 => Refusal::Again { bond: at },
                6 => Refusal::Pieces,
                7 => Refusal::FewRows { needed: at },
                8 => Refusal::FewClassRows { needed: at },
                9 => Refusal::ManyRings,
                _ => unreachable!("no call is refused by {}", refusal),
            })
        }
    }

    // A slice passes as a pointer and a length.
    unsafe extern "C" {
        fn rings_families(
            n: usize,
            bonds: *const u8,
            bond_bytes: usize,
            family_rows: *mut u8,
            family_bytes: usize,
            class_rows: *mut u8,
            class_bytes: usize,
        ) -> Reply;
        fn rings_family_size(
            n: usize,
            bonds: *const u8,
            bond_bytes: usize,
            family_rows: *mut u8,
            family_bytes: usize,
            class_rows: *mut u8,
            class_bytes: usize,
            row: usize,
        ) -> Reply;
        fn rings_families_of(
            n: usize,
            bonds: *const Bond,
            bond_count: usize,
            family_rows: *mut u8,
            family_bytes: usize,
            class_rows: *mut u8,
            class_bytes: usize,
        ) -> Reply;
        fn rings_family_size_of(
            n: usize,
            bonds: *const Bond,
            bond_count: usize,
            family_rows: *mut u8,
            family_bytes: usize,
            class_rows: *mut u8,
            class_bytes: usize,
            row: usize,
        ) -> Reply;
    }

    // Why every call below is sound: the pointers and lengths are those of slices that live through the call, of which the two
    // that are written are lent by `&mut` and so overlap nothing. The functions of the archive ask no more, and are proved to
    // keep within what they are lent; they keep no pointer. `Bond` and `Reply` have the layout that C gives them.

    /// As [`families`](super::families).
    pub fn families(n: usize, bonds: &[u8], family_rows: &mut [u8], class_rows: &mut [u8]) -> Reply {
        let (f, c) = (family_rows, class_rows);
        // SAFETY: see above.
        unsafe { rings_families(n, bonds.as_ptr(), bonds.len(), f.as_mut_ptr(), f.len(), c.as_mut_ptr(), c.len()) }
    }

    /// As [`family_size`](super::family_size).
    pub fn family_size(n: usize, bonds: &[u8], family_rows: &mut [u8], class_rows: &mut [u8], row: usize) -> Reply {
        let (f, c) = (family_rows, class_rows);
        // SAFETY: see above.
        unsafe { rings_family_size(n, bonds.as_ptr(), bonds.len(), f.as_mut_ptr(), f.len(), c.as_mut_ptr(), c.len(), row) }
    }

    /// As [`families_of`](super::families_of).
    pub fn families_of(n: usize, bonds: &[Bond], family_rows: &mut [u8], class_rows: &mut [u8]) -> Reply {
        let (f, c) = (family_rows, class_rows);
        // SAFETY: see above.
        unsafe { rings_families_of(n, bonds.as_ptr(), bonds.len(), f.as_mut_ptr(), f.len(), c.as_mut_ptr(), c.len()) }
    }

    /// As [`family_size_of`](super::family_size_of).
    pub fn family_size_of(n: usize, bonds: &[Bond], family_rows: &mut [u8], class_rows: &mut [u8], row: usize) -> Reply {
        let (f, c) = (family_rows, class_rows);
        // SAFETY: see above.
        unsafe { rings_family_size_of(n, bonds.as_ptr(), bonds.len(), f.as_mut_ptr(), f.len(), c.as_mut_ptr(), c.len(), row) }
    }
}
