//! The image of what a stream shows (requests 2026-01 and 2026-04; include/usbfs_iso.h).

use crate::{Opening, Shown};

pub const SETUP_AT: usize = 24;
/// Where started and armed stand.
pub const FLAGS_AT: usize = 120;
pub const STATES_AT: usize = 136;

pub fn image_size(n: u64) -> u64 {
    200 + 5 * n
}

/// Flags and totals that are not shown are 0.
pub fn image_of(o: &Opening, shown: &Shown) -> Vec<u8> {
    let n = o.n;
    let mut image = Vec::with_capacity(image_size(n) as usize);
    let queued = shown.queue.len() as u64;
    for number in [n, queued, SETUP_AT as u64, STATES_AT as u64, STATES_AT as u64 + n, STATES_AT as u64 + 5 * n] {
        image.extend_from_slice(&(number as u32).to_le_bytes());
    }
    for number in [n, o.p, o.b, o.endpoint, o.policy, o.silence, o.base, o.tagged, o.frame] {
        image.extend_from_slice(&number.to_le_bytes());
    }
    for number in shown.hand.numbers() {
        image.extend_from_slice(&number.to_le_bytes());
    }
    for flag in shown.flags.unwrap_or_default() {
        image.extend_from_slice(&u64::from(flag).to_le_bytes());
    }
    image.extend_from_slice(&shown.states);
    for &slot in &shown.queue {
        image.extend_from_slice(&(slot as u32).to_le_bytes());
    }
    image.resize(STATES_AT + 5 * n as usize, 0);
    for total in shown.totals.unwrap_or_default() {
        image.extend_from_slice(&total.to_le_bytes());
    }
    image
}
