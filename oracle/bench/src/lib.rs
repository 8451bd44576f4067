//! usbfs-iso as published, its seven files unchanged, and its hot cycle.

// The files name std and libc; the clock, the block's place, ioctl and poll are scripted there.
extern crate std_shim as std;

#[allow(dead_code, clippy::all)]
#[rustfmt::skip]
#[path = "../../../docs/src/crates/usbfs-iso/src/descriptor.rs"]
mod descriptor;
#[allow(dead_code, clippy::all)]
#[rustfmt::skip]
#[path = "../../../docs/src/crates/usbfs-iso/src/device.rs"]
mod device;
#[allow(dead_code, clippy::all)]
#[rustfmt::skip]
#[path = "../../../docs/src/crates/usbfs-iso/src/error.rs"]
mod error;
#[allow(dead_code, clippy::all)]
#[rustfmt::skip]
#[path = "../../../docs/src/crates/usbfs-iso/src/iso.rs"]
mod iso;
#[allow(dead_code, clippy::all)]
#[rustfmt::skip]
#[path = "../../../docs/src/crates/usbfs-iso/src/ring.rs"]
mod ring;
#[allow(dead_code, clippy::all)]
#[rustfmt::skip]
#[path = "../../../docs/src/crates/usbfs-iso/src/schedule.rs"]
mod schedule;
#[allow(dead_code, clippy::all)]
#[rustfmt::skip]
#[path = "../../../docs/src/crates/usbfs-iso/src/sys.rs"]
mod sys;

pub use error::{Error, Result};
pub use schedule::Speed;

mod cycles;

pub use cycles::{cycles, ring_bytes};
