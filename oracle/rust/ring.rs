//! What iso.rs finds as crate::ring: the published ring behind a handle, so that the driver can look at it while a
//! call waits in ioctl. Only `complete` is told to the driver; it changes nothing.

use std::cell::Cell;
use std::ops::{Deref, DerefMut};
use std::ptr::NonNull;

use crate::published_ring;
pub(crate) use crate::published_ring::{Completion, RingLayout, SlotState};
use crate::Result;

thread_local! {
    static OPENED: Cell<Option<NonNull<published_ring::Ring>>> = const { Cell::new(None) };
}

#[derive(Debug)]
pub(crate) struct Ring(NonNull<published_ring::Ring>);

// SAFETY: the handle owns its ring as a Box would, and the published ring is Send.
unsafe impl Send for Ring {}

impl Ring {
    pub(crate) fn new(layout: RingLayout, endpoint: u8, urb_type: u8, flags: u32) -> Result<Ring> {
        let ring = Box::new(published_ring::Ring::new(layout, endpoint, urb_type, flags)?);
        let place = NonNull::from(Box::leak(ring));
        OPENED.with(|o| o.set(Some(place)));
        Ok(Ring(place))
    }

    pub(crate) fn complete(&mut self, idx: usize) -> Completion {
        let completion = self.deref_mut().complete(idx);
        crate::record::completed(completion);
        completion
    }
}

impl Deref for Ring {
    type Target = published_ring::Ring;
    fn deref(&self) -> &published_ring::Ring {
        // SAFETY: the place is live until this handle is dropped.
        unsafe { self.0.as_ref() }
    }
}

impl DerefMut for Ring {
    fn deref_mut(&mut self) -> &mut published_ring::Ring {
        // SAFETY: as above; nothing else refers to it while iso.rs does.
        unsafe { self.0.as_mut() }
    }
}

impl Drop for Ring {
    fn drop(&mut self) {
        OPENED.with(|o| o.set(None));
        // SAFETY: the place came from a leaked Box and is given back once.
        drop(unsafe { Box::from_raw(self.0.as_ptr()) });
    }
}

/// Looks at the ring that was opened last. Only called where iso.rs holds no reference to it.
pub(crate) fn look<T>(with: impl FnOnce(&mut published_ring::Ring) -> T) -> T {
    let mut place = OPENED.with(|o| o.get()).expect("no ring is open");
    // SAFETY: the ring is live, and iso.rs waits in a scripted call or is not running.
    with(unsafe { place.as_mut() })
}

/// The free queue, front first: each slot is taken and given back once, after which the order is what it was.
pub(crate) fn queue(ring: &mut published_ring::Ring) -> Vec<u64> {
    (0..ring.free_count())
        .filter_map(|_| {
            let idx = ring.take_free()?;
            ring.release(idx);
            Some(idx as u64)
        })
        .collect()
}

/// 0 to 3: Free, Filling, InFlight, Discarding.
pub(crate) fn states(ring: &published_ring::Ring) -> Vec<u8> {
    (0..ring.layout().slots)
        .map(|i| match ring.state(i) {
            SlotState::Free => 0,
            SlotState::Filling => 1,
            SlotState::InFlight => 2,
            SlotState::Discarding => 3,
        })
        .collect()
}
