//! The archive called in all its forms with watched buffers, each call held to what it must answer and write.

use crate::compound::{Fault, Listing, CLASSES, CLASS_ROW, FAMILIES, FAMILY_ROW};
use crate::inputs::{pairs, Input};
use crate::judges::Judged;
use crate::rings::reply::{self, Reply};
use crate::rings::{Answer, Bond};

/// The bytes lent for family rows and for class rows.
pub type Room = (usize, usize);

/// What a call must answer, and whether it writes rows.
fn expected(judged: &Judged, room: Room, row: Option<usize>) -> (Reply, bool) {
    let refused = |refusal, at| (Reply { refusal, at, ..Reply::default() }, false);
    let l = match judged {
        Err((refusal, at)) => return refused(*refusal, *at),
        Ok(l) => l,
    };
    if l.families > (room.0 / FAMILY_ROW).min(FAMILIES) as u64 {
        return refused(7, l.families);
    }
    if l.classes > (room.1 / CLASS_ROW) as u64 {
        return refused(8, l.classes);
    }
    if l.rings > u64::MAX as u128 {
        return refused(9, 0);
    }
    let Listing { cyclomatic, families, classes, total, .. } = *l;
    let size = row.and_then(|row| l.sizes.get(row)).copied().unwrap_or(0) as u64;
    (Reply { refusal: 0, at: 0, cyclomatic, families, classes, total, rings: l.rings as u64, size }, true)
}

/// The reply as it must be taken apart: the full answer, or the refusal's number and what it names.
fn taken_apart(reply: Reply) -> Result<Answer, Fault> {
    let Reply { refusal, at, cyclomatic, families, classes, total, rings, .. } = reply;
    if refusal == 0 {
        Ok(Answer { cyclomatic, families, classes, total, rings })
    } else {
        Err((refusal, at))
    }
}

/// A lent buffer with bytes around it that nobody may write, filled with a pattern first.
struct Lent {
    all: Vec<u8>,
    room: usize,
    salt: usize,
}

/// How many bytes before a lent buffer and after it are watched.
const AROUND: usize = 24;

impl Lent {
    fn new(room: usize, salt: usize) -> Lent {
        Lent { all: (0..room + 2 * AROUND).map(|i| Lent::pattern(i, salt)).collect(), room, salt }
    }
    fn pattern(i: usize, salt: usize) -> u8 {
        (i.wrapping_mul(151).wrapping_add(salt.wrapping_mul(67)) >> 1) as u8 ^ 0xA5
    }
    fn lent(&mut self) -> &mut [u8] {
        &mut self.all[AROUND..AROUND + self.room]
    }
    /// The rows at the start, the pattern everywhere else.
    fn check(&self, what: &str, rows: &[u8]) -> Result<(), String> {
        for (i, byte) in self.all.iter().enumerate() {
            let wanted = match i.checked_sub(AROUND) {
                Some(k) if k < rows.len() => rows[k],
                _ => Lent::pattern(i, self.salt),
            };
            if *byte != wanted {
                let place = i as isize - AROUND as isize;
                return Err(format!("byte {} of the {} buffer ({} lent) is {}, should be {}", place, what, self.room, byte, wanted));
            }
        }
        Ok(())
    }
}

#[derive(Clone, Copy, Debug)]
enum Form {
    Families,
    FamilySize(usize),
    FamiliesOf,
    FamilySizeOf(usize),
}

/// The calls on one input.
pub struct Calls<'a> {
    input: &'a Input,
    records: Vec<Bond>,
    judged: &'a Judged,
    made: usize,
}

impl<'a> Calls<'a> {
    /// No call yet on an input of which the judges have this to say.
    pub fn new(input: &'a Input, judged: &'a Judged) -> Calls<'a> {
        let records = input.bytes.chunks_exact(2).map(|w| Bond { a: w[0], b: w[1] }).collect();
        Calls { input, records, judged, made: 0 }
    }

    /// The number of calls made.
    pub fn made(&self) -> usize {
        self.made
    }

    /// Calls in all forms, with one room after the other; the first thing wrong.
    pub fn with_rooms(&mut self, rooms: &[Room]) -> Result<(), String> {
        let families = self.judged.as_ref().map_or(0, |l| l.families as usize);
        for (i, room) in rooms.iter().enumerate() {
            let row = i % (families + 1);
            self.one(Form::Families, *room)?;
            self.one(Form::FamilySize(row), *room)?;
            // Records have no odd byte. Their two calls take turns.
            if self.input.bytes.len() % 2 == 0 {
                self.one(if i % 2 == 0 { Form::FamiliesOf } else { Form::FamilySizeOf(row) }, *room)?;
            }
        }
        Ok(())
    }

    /// Calls for the sizes of the families of a listing and past the last row; the first thing wrong.
    pub fn of_rows(&mut self, l: &Listing) -> Result<(), String> {
        let families = l.families as usize;
        // A call on a compound with thousands of families takes long, so few of its rows are asked for.
        let rows: Vec<usize> = if families <= 24 { (0..families).collect() } else { (0..12).map(|i| i * (families - 1) / 11).collect() };
        let past = [families, families + 1, FAMILIES, usize::MAX];
        for (i, row) in rows.into_iter().chain(past).enumerate() {
            self.one(if i % 3 == 0 { Form::FamilySizeOf(row) } else { Form::FamilySize(row) }, needed(l))?;
        }
        Ok(())
    }

    /// One call with its buffers watched; the text says what is wrong.
    fn one(&mut self, form: Form, room: Room) -> Result<(), String> {
        self.made += 1;
        // Another pattern for each call, so that a row left by an earlier one is seen.
        let salt = self.input.n.wrapping_add(self.input.bytes.len()).wrapping_add(self.made);
        let (mut families, mut classes) = (Lent::new(room.0, salt), Lent::new(room.1, salt.wrapping_add(1)));
        let (reply, row) = self.reply(form, families.lent(), classes.lent());
        let (wanted, written) = expected(self.judged, room, row);
        let call = || format!("call {:?} with {} family bytes and {} class bytes", form, room.0, room.1);
        if reply != wanted {
            return Err(format!("{}:\n  answered  {:?}\n  should be {:?}", call(), reply, wanted));
        }
        if reply.answer().map_err(|refusal| (refusal.number(), refusal.at())) != taken_apart(wanted) {
            return Err(format!("{}:\n  {:?} is taken apart as {:?}", call(), reply, reply.answer()));
        }
        let (family_rows, class_rows): (&[u8], &[u8]) = match self.judged {
            Ok(l) if written => (&l.family_rows, &l.class_rows),
            _ => (&[], &[]),
        };
        families.check("family", family_rows).and(classes.check("class", class_rows)).map_err(|e| format!("{}:\n  {}", call(), e))
    }

    /// What the archive answers, and the row that it was asked for.
    fn reply(&self, form: Form, f: &mut [u8], c: &mut [u8]) -> (Reply, Option<usize>) {
        let (n, bytes, records) = (self.input.n, &self.input.bytes, &self.records);
        match form {
            Form::Families => (reply::families(n, bytes, f, c), None),
            Form::FamilySize(row) => (reply::family_size(n, bytes, f, c, row), Some(row)),
            Form::FamiliesOf => (reply::families_of(n, records, f, c), None),
            Form::FamilySizeOf(row) => (reply::family_size_of(n, records, f, c, row), Some(row)),
        }
    }
}

/// The room that a listing needs.
fn needed(l: &Listing) -> Room {
    (l.family_rows.len(), l.class_rows.len())
}

/// The rooms to call a refused input with.
pub fn when_refused() -> Vec<Room> {
    vec![(0, 0), (40, 27)]
}

/// Room just enough for a listing, somewhat more and somewhat less.
pub fn around(l: &Listing) -> Vec<Room> {
    let (f, c) = needed(l);
    let mut rooms = vec![(f, c), (f + 5, c + 3), (f + 25, c + 11)];
    if l.families > 0 {
        rooms.extend([(0, 0), (f - 1, c), (0, c), (f, c - 1), (f - 1, c - 1), (f, 0), (f + 7, c - 1), (f - FAMILY_ROW, c + 40)]);
    }
    rooms
}

/// Every room from nothing to somewhat more than a listing needs, and about the most that can be needed.
pub fn all(l: &Listing) -> Vec<Room> {
    let (f, c) = needed(l);
    let most = [(FAMILY_ROW * FAMILIES + 3, CLASS_ROW * CLASSES), (FAMILY_ROW * (FAMILIES + 1), CLASS_ROW * CLASSES + 41)];
    pairs(0..=f + 17, 0..=c + 11).chain(most).collect()
}
