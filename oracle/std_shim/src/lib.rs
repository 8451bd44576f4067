//! std, but for the clock and for where the ring's block lies: both come from the script.

pub use std::*;

pub mod time {
    pub use std::time::*;

    /// A moment of the scripted clock, in microseconds.
    #[derive(Debug, Clone, Copy, PartialEq, Eq, PartialOrd, Ord)]
    pub struct Instant(u64);

    impl Instant {
        pub fn now() -> Instant {
            Instant((script::machine().clock)())
        }
    }

    impl std::ops::Add<Duration> for Instant {
        type Output = Instant;
        fn add(self, more: Duration) -> Instant {
            Instant(self.0 + more.as_micros() as u64)
        }
    }

    impl std::ops::Sub for Instant {
        type Output = Duration;
        fn sub(self, earlier: Instant) -> Duration {
            Duration::from_micros(self.0 - earlier.0)
        }
    }
}

pub mod alloc {
    pub use std::alloc::Layout;

    /// # Safety
    /// As std's: the layout's size is not zero.
    pub unsafe fn alloc_zeroed(layout: Layout) -> *mut u8 {
        let block = (script::machine().block)(layout.size());
        // SAFETY: the script gives a place with room for that many bytes.
        unsafe { block.write_bytes(0, layout.size()) };
        block
    }

    /// The script owns the memory, so there is nothing to free.
    ///
    /// # Safety
    /// None is asked.
    pub unsafe fn dealloc(_block: *mut u8, _layout: Layout) {}
}
