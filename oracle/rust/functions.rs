//! The functions beside the calls: the published Rust's results.

use form::{function, Figures, Question};

use crate::descriptor::Endpoint;
use crate::device::UsbFsDevice;
use crate::error::ErrnoContext;
use crate::iso::{plan, IsoOut};
use crate::numbers::refusal;
use crate::ring::RingLayout;
use crate::schedule::{packet_interval_us, Depth, Schedule};
use crate::{Error, Result, Speed};

/// What the published Rust gives, with the interval of `kernels_interval` where that has one. None where it wraps
/// around 2^64 and the paper says that it differs. It has no frame size: every question's is 1.
pub fn expected(q: &Question) -> Option<Figures> {
    Some(result(q)?.map_err(|e| match (q[0], refusal(&e)) {
        // The builder's refusal of an endpoint has a number of its own.
        (function::BUILD, (26, None)) => (30, 0),
        (_, (number, value)) => (number, value.unwrap_or(0)),
    }))
}

type Values = Vec<Option<u64>>;

fn result(q: &Question) -> Option<Result<Values>> {
    let [_, a, b, c, d, ..] = *q;
    Some(match q[0] {
        function::LAYOUT => return layout(a, b, c),
        function::FROM_RAW => Ok(vec![Some(speed_number(Speed::from_raw(a as u32 as i32)))]),
        function::FROM_DEVICE_PROBE => Ok(vec![Some(speed_number(Speed::from_device_probe(a as u8, b == 1)))]),
        function::PACKET_INTERVAL_US => {
            let (speed, b_interval) = (Speed::from_raw(a as i32), b as u8);
            packet_interval_us(speed, b_interval)
                .map(|us| vec![Some(u64::from(kernels_interval(speed, b_interval).unwrap_or(us)))])
        }
        function::BYTES_PER_INTERVAL => Ok(vec![Some(endpoint(1, a, 1).bytes_per_interval() as u64)]),
        function::DERIVE => {
            let (speed, depth, packets) = (Speed::from_raw(a as u32 as i32), depth(d, q[5]), packets(q[6], q[7]));
            Schedule::derive(speed, b as u8, c as usize, depth, packets)
                .map(|s| schedule(&with_kernels_interval(s, depth)))
        }
        function::PLAN => {
            let (speed, depth, packets) = (Speed::from_raw(a as u32 as i32), depth(q[5], q[6]), packets(q[7], q[8]));
            plan(speed, &endpoint(b, c, d), depth, packets).map(|s| schedule(&with_kernels_interval(s, depth)))
        }
        function::FROM_ERRNO => {
            let bytes = c as usize;
            let context = if b == 0 { ErrnoContext::Submit { bytes } } else { ErrnoContext::Other };
            Err(Error::from_errno(a as i32, context))
        }
        _ => return build(q),
    })
}

/// The interval by request 2026-05, where the Rust's is not the kernel's: it has High's cap on Super and SuperPlus too
/// (docs/DIFFERENCES.md).
fn kernels_interval(speed: Speed, b_interval: u8) -> Option<u32> {
    match (speed, b_interval) {
        (Speed::Super | Speed::SuperPlus, 15) => Some(2_048_000),
        (Speed::Super | Speed::SuperPlus, 16) => Some(4_096_000),
        _ => None,
    }
}

/// The Rust's schedule; with the kernel's interval in it, and its URBs worked out from that, where the two differ.
fn with_kernels_interval(mut s: Schedule, depth: Depth) -> Schedule {
    let Some(interval) = kernels_interval(s.speed, s.b_interval) else {
        return s;
    };
    s.packet_interval_us = interval;
    let us = match depth {
        Depth::Urbs(_) => return s,
        Depth::Micros(us) => us as usize,
        Depth::Millis(ms) => 1000 * ms as usize,
    };
    s.urbs = us.div_ceil(interval as usize).div_ceil(s.packets_per_urb).max(2);
    s
}

fn layout(n: u64, p: u64, b: u64) -> Option<Result<Values>> {
    let laid = RingLayout::new(n as usize, p as usize, b as usize);
    let raised = |v: u128, to: u128| v.div_ceil(to) * to;
    let wide = |v: u64| u128::from(v);
    if let Ok(l) = &laid {
        // Beyond 2^64 - 1 the Rust's align_up wraps: a difference that the paper names.
        let stride = raised(56 + 12 * wide(p), 8);
        let payload = raised(wide(p) * wide(b), 64).checked_mul(wide(n));
        let total = payload.and_then(|v| v.checked_add(raised(wide(n) * stride, 64)));
        if total != Some(wide(l.total_bytes as u64)) {
            return None;
        }
    }
    Some(laid.map(|l| {
        let values = [l.slot_stride, l.data_base, l.data_stride, l.total_bytes, l.align, l.slot_capacity()];
        values.map(|v| Some(v as u64)).to_vec()
    }))
}

/// What the builder makes of its values: slots, packets, bytes. None for a ring that is too large to be made here, or
/// larger than the paper's added limits.
fn build(q: &Question) -> Option<Result<Values>> {
    let [_, speed, interval_given, interval, size_given, size, bytes_given, bytes, endpoint, ..] = *q;
    let (speed, depth, packets) = (Speed::from_raw(speed as i32), depth(q[9], q[10]), packets(q[11], q[12]));
    let packet_bytes = if bytes_given == 1 { bytes } else { size };
    if let Ok(s) = Schedule::derive(speed, interval as u8, packet_bytes as usize, depth, packets) {
        let layout = RingLayout::new(s.urbs, s.packets_per_urb, s.packet_bytes);
        if s.urbs > 256 || packet_bytes > 49_152 || layout.is_ok_and(|l| l.total_bytes > LARGEST_BUILD) {
            return None;
        }
    }
    script::install(builders_machine());
    // SAFETY: the descriptor is never used.
    let device = unsafe { UsbFsDevice::from_borrowed_fd(0) };
    let mut builder = IsoOut::builder(&device, endpoint as u8).speed(speed).depth(depth);
    if interval_given == 1 {
        builder = builder.interval(interval as u8);
    }
    if size_given == 1 {
        builder = builder.max_packet_size(size as usize);
    }
    if bytes_given == 1 {
        builder = builder.packet_bytes(bytes as usize);
    }
    if let Some(packets) = packets {
        builder = builder.packets_per_urb(packets);
    }
    Some(builder.build().map(|out| {
        let s = with_kernels_interval(*out.schedule(), depth);
        [s.urbs, s.packets_per_urb, s.packet_bytes].map(|v| Some(v as u64)).to_vec()
    }))
}

const LARGEST_BUILD: usize = 1 << 17;

/// Building a ring only takes its memory.
fn builders_machine() -> script::Machine {
    script::Machine {
        ioctl: |_, _| Err(libc::ENODEV),
        poll: || Err(libc::ENODEV),
        clock: || 0,
        block: |_| script::arena() as *mut u8,
    }
}

/// Interval, packets, URBs, bytes; then the two durations and the memory, not compared where the Rust wraps.
fn schedule(s: &Schedule) -> Values {
    let (us, packets, urbs) = (u64::from(s.packet_interval_us), s.packets_per_urb as u64, s.urbs as u64);
    let bytes = s.packet_bytes as u64;
    let unless_wrapped = |factors: [u64; 3], shown: u64| {
        let product = factors.iter().try_fold(1u64, |v, &f| v.checked_mul(f));
        product.map(|_| shown)
    };
    vec![
        Some(us),
        Some(packets),
        Some(urbs),
        Some(bytes),
        unless_wrapped([us, packets, 1], s.urb_duration_us()),
        unless_wrapped([us, packets, urbs], s.in_flight_us()),
        unless_wrapped([urbs, packets, bytes], s.memory_bytes() as u64),
    ]
}

fn endpoint(attributes: u64, field: u64, interval: u64) -> Endpoint {
    Endpoint { address: 1, attributes: attributes as u8, max_packet_size: field as u16, interval: interval as u8 }
}

fn depth(kind: u64, value: u64) -> Depth {
    match kind {
        0 => Depth::Urbs(value as usize),
        1 => Depth::Micros(value as u32),
        _ => Depth::Millis(value as u32),
    }
}

fn packets(given: u64, value: u64) -> Option<usize> {
    (given == 1).then_some(value as usize)
}

fn speed_number(speed: Speed) -> u64 {
    match speed {
        Speed::Unknown => 0,
        Speed::Low => 1,
        Speed::Full => 2,
        Speed::High => 3,
        Speed::Wireless => 4,
        Speed::Super => 5,
        Speed::SuperPlus => 6,
    }
}
