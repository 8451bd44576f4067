//! What the functions are asked: exhaustive where the inputs are few, at every boundary else.

use form::{function, Question, FUNCTION_NUMBERS};

/// Counts around which layouts change or overflow.
const SIZES: [u64; 22] = [
    0,
    1,
    2,
    3,
    7,
    8,
    64,
    127,
    128,
    129,
    255,
    256,
    257,
    1024,
    49_151,
    49_152,
    49_153,
    1 << 32,
    1 << 55,
    1 << 56,
    1 << 63,
    u64::MAX,
];
/// URB counts, microseconds, milliseconds: the kind, then the value.
const DEPTHS: [(u64, u64); 24] = [
    (0, 0),
    (0, 1),
    (0, 2),
    (0, 3),
    (0, 256),
    (0, 1 << 40),
    (0, u64::MAX),
    (1, 0),
    (1, 1),
    (1, 124),
    (1, 125),
    (1, 126),
    (1, 999),
    (1, 1000),
    (1, 1001),
    (1, 8000),
    (1, 0xffff_ffff),
    (2, 0),
    (2, 1),
    (2, 7),
    (2, 8),
    (2, 20),
    (2, 1000),
    (2, 0xffff_ffff),
];
/// Absent, or given with a value.
const PACKETS: [(u64, u64); 10] =
    [(0, 0), (1, 0), (1, 1), (1, 2), (1, 3), (1, 8), (1, 127), (1, 128), (1, 129), (1, u64::MAX)];
const SPEEDS: std::ops::Range<u64> = 0..7;
/// The frame size with which the paper has the Rust's figures.
const FRAME: u64 = 1;

fn question(function: u64, arguments: &[u64]) -> Question {
    let mut q = [0; FUNCTION_NUMBERS];
    q[0] = function;
    q[1..1 + arguments.len()].copy_from_slice(arguments);
    q
}

/// Every input, one after the other.
pub fn inputs(ask: &mut dyn FnMut(Question)) {
    layouts(ask);
    for raw in (0..300).chain([0x7fff_ffff, 0x8000_0000]).chain(0xffff_ff00..=0xffff_ffff) {
        ask(question(function::FROM_RAW, &[raw]));
        ask(question(function::DERIVE, &[raw, 4, 192, 0, 8, 1, 8]));
        ask(question(function::PLAN, &[raw, 1, 192, 4, 0, 8, 1, 8]));
    }
    for size in 0..256 {
        for qualifier in 0..2 {
            ask(question(function::FROM_DEVICE_PROBE, &[size, qualifier]));
        }
        for speed in SPEEDS {
            ask(question(function::PACKET_INTERVAL_US, &[speed, size]));
        }
    }
    for field in 0..65_536 {
        ask(question(function::BYTES_PER_INTERVAL, &[field]));
    }
    derivations(ask);
    plans(ask);
    builds(ask);
    for errno in (0..300).chain([0x7fff_fffe, 0x7fff_ffff]) {
        for context in 0..2 {
            for bytes in [0, 3200, u64::MAX] {
                ask(question(function::FROM_ERRNO, &[errno, context, bytes]));
            }
        }
    }
}

fn layouts(ask: &mut dyn FnMut(Question)) {
    for n in 0..6 {
        for p in 0..=130 {
            for b in 0..=130 {
                ask(question(function::LAYOUT, &[n, p, b, FRAME]));
            }
        }
    }
    for n in SIZES {
        for p in SIZES {
            for b in SIZES {
                ask(question(function::LAYOUT, &[n, p, b, FRAME]));
            }
        }
    }
}

fn derivations(ask: &mut dyn FnMut(Question)) {
    for speed in SPEEDS {
        for interval in (0..=17).chain([255]) {
            for bytes in [0, 1, 100, 49_152, 1 << 32, u64::MAX] {
                for (depth, value) in DEPTHS {
                    for (given, packets) in PACKETS {
                        let arguments = [speed, interval, bytes, depth, value, given, packets];
                        ask(question(function::DERIVE, &arguments));
                    }
                }
            }
        }
    }
}

fn plans(ask: &mut dyn FnMut(Question)) {
    for speed in SPEEDS {
        for attributes in [0, 1, 2, 3, 5, 13, 0xfd, 0xff] {
            for field in [0, 1, 0x188, 0x7ff, 0x800, 0x1188, 0x1400, 0x1fff, 0xffff] {
                for interval in [0, 1, 4, 15, 16, 17] {
                    for (depth, value) in [(0, 0), (0, 300), (1, 8001), (2, 20)] {
                        for (given, packets) in [(0, 0), (1, 0), (1, 8), (1, 129)] {
                            let arguments = [speed, attributes, field, interval, depth, value, given, packets];
                            ask(question(function::PLAN, &arguments));
                        }
                    }
                }
            }
        }
    }
}

/// The frame size is absent and given in turn.
fn builds(ask: &mut dyn FnMut(Question)) {
    let mut framed = 0;
    for speed in [0, 2, 3, 6] {
        for (known, interval) in [(0, 0), (1, 0), (1, 1), (1, 4), (1, 15), (1, 16), (1, 17)] {
            for (sized, size) in [(0, 0), (1, 0), (1, 1), (1, 100), (1, 49_152)] {
                for (given, bytes) in [(0, 0), (1, 0), (1, 1), (1, 100), (1, 101)] {
                    for endpoint in [0, 1, 0x7f, 0x80, 0xff] {
                        for (depth, value) in [(0, 0), (0, 3), (0, 256), (2, 8), (2, 20_000)] {
                            for (chosen, packets) in [(0, 0), (1, 0), (1, 8), (1, 128), (1, 129)] {
                                let first = [speed, known, interval, sized, size, given];
                                let last = [bytes, endpoint, depth, value, chosen, packets];
                                framed = 1 - framed;
                                ask(question(function::BUILD, &[&first[..], &last, &[framed, FRAME]].concat()));
                            }
                        }
                    }
                }
            }
        }
    }
}
