//! A word before the end where the archive crashes: which input was in hand.

use std::cell::Cell;

thread_local! {
    static IN_HAND: Cell<usize> = const { Cell::new(usize::MAX) };
}

extern "C" {
    fn signal(number: i32, handler: usize) -> usize;
    fn _exit(status: i32) -> !;
    fn write(file: i32, bytes: *const u8, count: usize) -> isize;
}

/// Runs in the thread that crashed; writes without allocating.
extern "C" fn crashed(_signal: i32) {
    let text = b"the archive crashed; to see the input again, run the comparer with this number: ";
    let mut digits = [b'\n'; 21];
    let (mut number, mut from) = (IN_HAND.with(Cell::get), 20);
    loop {
        from -= 1;
        digits[from] = b'0' + (number % 10) as u8;
        number /= 10;
        if number == 0 {
            break;
        }
    }
    unsafe {
        write(1, text.as_ptr(), text.len());
        write(1, digits[from..].as_ptr(), 21 - from);
        _exit(3)
    }
}

/// Tells a crash from now on.
pub fn watch() {
    // Illegal instruction, abort, bus, arithmetic, segment.
    for number in [4, 6, 7, 8, 11] {
        unsafe { signal(number, crashed as extern "C" fn(i32) as usize) };
    }
}

/// The number of the input that this thread takes up.
pub fn in_hand(case: usize) {
    IN_HAND.with(|i| i.set(case));
}
