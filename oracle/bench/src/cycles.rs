//! The hot cycle of the published Rust, for the benchmark. The kernel accepts every URB and hands back the oldest, one a pass.

use std::ffi::c_void;
use std::sync::atomic::{AtomicBool, AtomicUsize, Ordering::Relaxed};
use std::time::Duration;

use crate::device::UsbFsDevice;
use crate::iso::IsoOut;
use crate::ring::RingLayout;
use crate::schedule::{Depth, Speed};
use crate::sys;

static BLOCK: AtomicUsize = AtomicUsize::new(0);
static STRIDE: AtomicUsize = AtomicUsize::new(0);
static SLOTS: AtomicUsize = AtomicUsize::new(0);
static OLDEST: AtomicUsize = AtomicUsize::new(0);
/// Whether the kernel has a URB to hand back in this pass.
static READY: AtomicBool = AtomicBool::new(false);

fn ioctl(request: u32, argument: *mut c_void) -> Result<i32, i32> {
    if request != sys::REAPURBNDELAY {
        return Ok(0);
    }
    if !READY.swap(false, Relaxed) {
        return Err(libc::EAGAIN);
    }
    let oldest = OLDEST.load(Relaxed);
    // SAFETY: REAPURBNDELAY's argument is where the URB's address goes.
    unsafe { *argument.cast::<usize>() = BLOCK.load(Relaxed) + oldest * STRIDE.load(Relaxed) };
    OLDEST.store(if oldest + 1 < SLOTS.load(Relaxed) { oldest + 1 } else { 0 }, Relaxed);
    Ok(0)
}

/// The bytes and the header stride of a ring.
pub fn ring_bytes(n: usize, p: usize, b: usize) -> (usize, usize) {
    let layout = RingLayout::new(n, p, b).expect("a ring");
    (layout.total_bytes, layout.slot_stride)
}

/// Builds a ring in the block, sends all slots, and makes `count` cycles. How many slots came back, and how long the cycles
/// took by `clock`.
pub fn cycles(n: usize, p: usize, b: usize, block: *mut u8, count: usize, clock: fn() -> u64) -> (u64, u64) {
    BLOCK.store(block as usize, Relaxed);
    STRIDE.store(ring_bytes(n, p, b).1, Relaxed);
    SLOTS.store(n, Relaxed);
    OLDEST.store(0, Relaxed);
    READY.store(false, Relaxed);
    script::install(script::Machine {
        ioctl,
        poll: || Err(libc::ENODEV),
        clock: || 0,
        block: |_| BLOCK.load(Relaxed) as *mut u8,
    });
    // SAFETY: the descriptor is never used.
    let device = unsafe { UsbFsDevice::from_borrowed_fd(0) };
    let builder = IsoOut::builder(&device, 1).speed(Speed::Full).interval(1).max_packet_size(b);
    let mut out = builder.packets_per_urb(p).depth(Depth::Urbs(n)).build().expect("a stream");
    for _ in 0..n {
        send(&mut out);
    }
    let start = clock();
    for _ in 0..count {
        READY.store(true, Relaxed);
        send(&mut out);
    }
    let took = clock() - start;
    let done = out.stats().urbs_completed;
    // Its Drop would wait for URBs that nobody hands back.
    std::mem::forget(out);
    (done, took)
}

/// A pass of next_slot, and the slot committed whole.
fn send(out: &mut IsoOut) {
    let slot = out.next_slot(Duration::ZERO).expect("no error").expect("a free slot");
    slot.commit_full().expect("accepted");
}
