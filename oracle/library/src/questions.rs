//! The functions beside the calls, as far as C has them (docs/RUNS.md).

use form::{function, image_size, kind, Call, Figures, Opening, Question, Side};

use crate::{c, Library};

/// A C function that writes that many numbers, or refuses.
fn figures(count: usize, call: impl FnOnce(*mut u64, usize) -> u32) -> Figures {
    let mut numbers = vec![0; count];
    match call(numbers.as_mut_ptr(), 8 * count) {
        0 => Ok(numbers.into_iter().map(Some).collect()),
        refusal => Err((u64::from(refusal), 0)),
    }
}

/// URBs and microseconds. None for a depth that C cannot be given.
fn depth(kind: u64, value: u64) -> Option<(u64, u32)> {
    match kind {
        0 => Some((value, 0)),
        1 => Some((0, u32::try_from(value).ok()?)),
        _ => Some((0, u32::try_from(value.checked_mul(1000)?).ok()?)),
    }
}

fn packets(given: u64, value: u64) -> u64 {
    if given == 1 {
        value
    } else {
        1
    }
}

/// The first four of derive's numbers; the products are not in C.
fn schedule(four: Figures) -> Figures {
    four.map(|numbers| numbers.into_iter().chain([None, None, None]).collect())
}

fn derive(speed: u64, interval: u64, bytes: u64, (urbs, us): (u64, u32), packets: u64) -> Figures {
    // SAFETY: `figures` passes room for the numbers, and how much.
    figures(4, |out, len| unsafe {
        c::usbfs_iso_derive(speed as u32 as i32, interval as u8, bytes, urbs, us, packets, out, len)
    })
}

fn plan(speed: u64, facts: (u64, u64, u64), (urbs, us): (u64, u32), packets: u64) -> Figures {
    let (attributes, size, interval) = (facts.0 as u8, facts.1 as u16, facts.2 as u8);
    // SAFETY: as in `derive`.
    figures(4, |out, len| unsafe {
        c::usbfs_iso_plan(speed as u32 as i32, attributes, size, interval, urbs, us, packets, out, len)
    })
}

/// One number of those, or the refusal.
fn only(place: usize, of: Figures) -> Figures {
    of.map(|numbers| vec![numbers[place]])
}

/// What an errno means, by a call that is told of it, on a ring of 3,200 bytes.
fn from_errno(errno: u64, context: u64, bytes: u64) -> Option<Figures> {
    // Elsewhere C has another ring; errno 11 is no refusal of reaped.
    if context == 0 && bytes != 3200 || context == 1 && errno == 11 {
        return None;
    }
    let mut library = Library::default();
    library.open(&Opening {
        n: 4,
        p: 8,
        b: 100,
        endpoint: 1,
        base: 65_536,
        frame: 1,
        block_len: 3968,
        image_len: image_size(4),
        ..Opening::default()
    });
    let mut made = |kind, argument| library.call(&Call { kind, argument, lent: 3968, ..Call::default() });
    let told = if context == 0 {
        made(kind::TURN, 0);
        made(kind::COMMIT_FULL, 0);
        made(kind::SUBMITTED_ERRNO, errno)
    } else {
        made(kind::REAPED_ERRNO, errno)
    };
    Some(Err((told.returned, told.numbers[1])))
}

pub(crate) fn ask(q: &Question) -> Option<Figures> {
    let [_, a, b, third, d, ..] = *q;
    match q[0] {
        // SAFETY: as in `derive`.
        function::LAYOUT => Some(figures(6, |out, len| unsafe { c::usbfs_iso_layout(a, b, third, d, out, len) })),
        function::PACKET_INTERVAL_US => Some(only(0, derive(a, b, 1, (2, 0), 1))),
        function::BYTES_PER_INTERVAL => match plan(2, (1, a, 1), (2, 0), 1) {
            Err((23, _)) => Some(Ok(vec![Some(0)])),
            planned => Some(only(3, planned)),
        },
        function::DERIVE => Some(schedule(derive(a, b, third, depth(d, q[5])?, packets(q[6], q[7])))),
        function::PLAN => Some(schedule(plan(a, (b, third, d), depth(q[5], q[6])?, packets(q[7], q[8])))),
        function::FROM_ERRNO => from_errno(a, b, third),
        _ => None,
    }
}
