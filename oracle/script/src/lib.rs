//! The four places where the Rust meets the machine: ioctl, poll, the clock and the ring's memory.
//! The local libc and std_shim call what is installed here, one set for each thread.

use std::cell::Cell;
use std::ffi::c_void;

/// What stands in for the machine. A reply of Err is an errno.
#[derive(Clone, Copy)]
pub struct Machine {
    pub ioctl: fn(request: u32, argument: *mut c_void) -> Result<i32, i32>,
    pub poll: fn() -> Result<Ready, i32>,
    pub clock: fn() -> u64,
    pub block: fn(bytes: usize) -> *mut u8,
}

/// What poll says of the descriptor.
pub enum Ready {
    No,
    Yes,
    HungUp,
}

thread_local! {
    static MACHINE: Cell<Option<Machine>> = const { Cell::new(None) };
}

pub fn install(machine: Machine) {
    MACHINE.with(|m| m.set(Some(machine)));
}

pub fn machine() -> Machine {
    MACHINE.with(|m| m.get()).expect("no machine installed")
}

extern "C" {
    fn mmap(at: *mut c_void, len: usize, prot: i32, flags: i32, fd: i32, offset: i64) -> *mut c_void;
}

/// Room for one ring at a time, always at the same address, so that a seed makes the same run again.
pub fn arena() -> u64 {
    const AT: u64 = 0x2000_0000_0000;
    static ARENA: std::sync::OnceLock<u64> = std::sync::OnceLock::new();
    *ARENA.get_or_init(|| {
        // PROT_READ | PROT_WRITE; MAP_PRIVATE | MAP_ANONYMOUS | MAP_FIXED_NOREPLACE.
        // SAFETY: asks for new pages only; an address in use is refused.
        let place = unsafe { mmap(AT as *mut c_void, 1 << 20, 3, 0x100022, -1, 0) };
        assert_eq!(place as u64, AT, "the arena's address is in use");
        AT
    })
}
