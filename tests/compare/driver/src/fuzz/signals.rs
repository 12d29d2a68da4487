//! Handlers of signals, on glibc for x86-64.

/// `struct sigaction`.
#[repr(C)]
struct Action {
    handler: usize,
    mask: [u64; 16],
    flags: i32,
    restorer: usize,
}

unsafe extern "C" {
    fn sigaction(signal: i32, action: *const Action, old: *mut Action) -> i32;
}

/// What a handler of a signal is handed: the signal, its information, and the state that it interrupts.
pub type Handler = extern "C" fn(i32, *const u8, *mut u8);

/// Let a signal come to a handler.
pub fn handle(signal: i32, handler: Handler) {
    const WITH_STATE: i32 = 4;
    let action = Action { handler: handler as usize, mask: [0; 16], flags: WITH_STATE, restorer: 0 };
    // SAFETY: the form is the one of glibc on x86-64.
    unsafe { sigaction(signal, &raw const action, std::ptr::null_mut()) };
}
