//! Watches over the call under way: a call that is ended by a signal, or does
//! not end, is named so that it can be made again.

use std::sync::atomic::{AtomicU64, Ordering};

extern "C" {
    fn signal(number: i32, handler: extern "C" fn(i32)) -> usize;
    fn alarm(seconds: u32) -> u32;
    fn write(file: i32, bytes: *const u8, length: usize) -> isize;
    fn _exit(status: i32) -> !;
}

// Linux, as in signal.h: ILL, ABRT, BUS, FPE, SEGV, ALRM.
const SIGNALS: [i32; 6] = [4, 6, 7, 8, 11, 14];

/// Longer than any call takes.
const SECONDS: u32 = 60;

static SEED: AtomicU64 = AtomicU64::new(0);
static INDEX: AtomicU64 = AtomicU64::new(0);

/// From here on a signal ends the program with the call's name.
pub fn start(seed: u64) {
    SEED.store(seed, Ordering::Relaxed);
    for number in SIGNALS {
        // SAFETY: the handler does only what a handler may.
        unsafe { signal(number, ended) };
    }
}

/// The call that is under way from now on.
pub fn over(index: u64) {
    INDEX.store(index, Ordering::Relaxed);
    // SAFETY: it only sets the clock of the process.
    unsafe { alarm(SECONDS) };
}

extern "C" fn ended(number: i32) {
    say("differ: a call was ended by signal ");
    say_number(number as u64);
    say("\nagain: differ replay ");
    say_number(SEED.load(Ordering::Relaxed));
    say(" ");
    say_number(INDEX.load(Ordering::Relaxed));
    say("\n");
    // SAFETY: allowed in a handler.
    unsafe { _exit(1) }
}

fn say(words: &str) {
    // SAFETY: as many bytes as said. Nothing can be done if they are not written.
    unsafe { write(1, words.as_ptr(), words.len()) };
}

fn say_number(number: u64) {
    let mut digits = [0; 20];
    let mut rest = number;
    let mut first = digits.len();
    loop {
        first -= 1;
        digits[first] = b'0' + (rest % 10) as u8;
        rest /= 10;
        if rest == 0 {
            break;
        }
    }
    // SAFETY: as above.
    unsafe { write(1, digits[first..].as_ptr(), digits.len() - first) };
}
