//! An input in whose call the program is stopped by the system, or that takes too long, is printed.

use super::signals::handle;
use reference::vectors::{CALLS, Call, Input, input_bytes};
use std::marker::PhantomData;
use std::sync::atomic::{AtomicPtr, AtomicUsize, Ordering};

/// How many seconds a call may take.
const LONGEST: u32 = 60;
const ALARM: i32 = 14;

unsafe extern "C" {
    fn alarm(seconds: u32) -> u32;
}

static WATCHED: AtomicPtr<Input> = AtomicPtr::new(std::ptr::null_mut());
static CALL: AtomicUsize = AtomicUsize::new(0);

/// As long as it lives, the input is that of the call that is made.
pub struct Watched<'a>(PhantomData<&'a Input>);

impl<'a> Watched<'a> {
    pub fn new(call: Call, input: &'a Input) -> Self {
        CALL.store(CALLS.iter().position(|known| *known == call).unwrap_or(0), Ordering::SeqCst);
        WATCHED.store((&raw const *input).cast_mut(), Ordering::SeqCst);
        // SAFETY: it only sets this process's alarm.
        unsafe { alarm(LONGEST) };
        Self(PhantomData)
    }
}

impl Drop for Watched<'_> {
    fn drop(&mut self) {
        WATCHED.store(std::ptr::null_mut(), Ordering::SeqCst);
    }
}

/// Let the signals of a wrong access, a wrong instruction, a division by zero and the alarm print the input.
pub fn watch() {
    for signal in [4, 7, 8, 11, ALARM] {
        handle(signal, stopped);
    }
}

extern "C" fn stopped(signal: i32, _: *const u8, _: *mut u8) {
    let watched = WATCHED.load(Ordering::SeqCst);
    if watched.is_null() && signal == ALARM {
        return;
    }
    // The library holds no lock and takes no memory, so that printing is safe where it was stopped.
    println!("signal {signal}{}", if signal == ALARM { ", a call that takes too long" } else { "" });
    if !watched.is_null() {
        // SAFETY: it lives as long as it is stored there.
        let (call, input) = (CALLS[CALL.load(Ordering::SeqCst)], unsafe { &*watched });
        println!("in {}:", call.name());
        print!("{}", String::from_utf8_lossy(&input_bytes(call, input)));
    }
    std::process::exit(1);
}
