//! Says which call the library was in if a signal ends the program.

use reference::lent::Kind;
use std::os::raw::{c_int, c_void};
use std::sync::atomic::{AtomicBool, AtomicU64, Ordering::Relaxed};

extern "C" {
    fn signal(number: c_int, handler: extern "C" fn(c_int)) -> usize;
    fn write(file: c_int, bytes: *const c_void, len: usize) -> isize;
    fn _exit(status: c_int) -> !;
}

/// Illegal instruction, abort, bus error, bad arithmetic, bad address.
const SIGNALS: [c_int; 5] = [4, 6, 7, 8, 11];

static INSIDE: AtomicBool = AtomicBool::new(false);
static CALL: AtomicU64 = AtomicU64::new(0);
static SEED: AtomicU64 = AtomicU64::new(0);
static CASE: AtomicU64 = AtomicU64::new(0);

/// Catches the signals from here on.
pub fn set() {
    for number in SIGNALS {
        unsafe { signal(number, fallen) };
    }
}

/// The seed and case that the following calls belong to.
pub fn note(seed: u64, case: u64) {
    SEED.store(seed, Relaxed);
    CASE.store(case, Relaxed);
}

pub fn enter(kind: Kind) {
    CALL.store(kind as u64, Relaxed);
    INSIDE.store(true, Relaxed);
}

pub fn leave() {
    INSIDE.store(false, Relaxed);
}

extern "C" fn fallen(number: c_int) {
    let inside = INSIDE.load(Relaxed);
    say(if inside { "\nSIGNAL " } else { "\nSIGNAL outside the library " });
    say_number(number as u64);
    say(": last call ");
    say(Kind::ALL[CALL.load(Relaxed) as usize].name());
    say(", seed ");
    say_number(SEED.load(Relaxed));
    say(", case ");
    say_number(CASE.load(Relaxed));
    say("\n");
    unsafe { _exit(1) }
}

fn say(text: &str) {
    unsafe { write(2, text.as_ptr().cast(), text.len()) };
}

/// Without allocating, as a handler must.
fn say_number(mut number: u64) {
    let mut digits = [0u8; 20];
    let mut from = digits.len();
    loop {
        from -= 1;
        digits[from] = b'0' + (number % 10) as u8;
        number /= 10;
        if number == 0 {
            break;
        }
    }
    unsafe { write(2, digits[from..].as_ptr().cast(), digits.len() - from) };
}
