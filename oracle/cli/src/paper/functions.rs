//! Layout, schedule, descriptor and errno.

use form::{function, Figures, Question, BLOCK_LIMIT, FUNCTION_NUMBERS};

use super::block::layout;
use super::calls::from_errno;
use super::stretch::stretch;
use super::wrong::Wrong;

/// What the paper has for a question.
pub fn ask(q: &Question, wrong: Wrong) -> Figures {
    let [_, a, b, c, d, ..] = *q;
    let refuse = |number| (number, 0);
    match q[0] {
        function::LAYOUT => numbers(laid_out([a, b, c, d], wrong).map_err(refuse)),
        function::FROM_RAW => numbers(Ok(vec![speed(a)])),
        function::FROM_DEVICE_PROBE => numbers(Ok(vec![if a == 9 { 5 } else { 2 + b }])),
        function::PACKET_INTERVAL_US => numbers(interval(a, b, wrong).map(|us| vec![us]).map_err(refuse)),
        function::BYTES_PER_INTERVAL => numbers(Ok(vec![bytes_per_interval(a, wrong)])),
        function::DERIVE => {
            let (depth, packets) = (depth(d, q[5]), (q[6] == 1).then_some(q[7]));
            derive(speed(a), b, c, depth, packets, wrong).map_err(refuse)
        }
        function::PLAN if b % 4 != 1 => Err(refuse(26)),
        function::PLAN => {
            let (depth, packets) = (depth(q[5], q[6]), (q[7] == 1).then_some(q[8]));
            derive(speed(a), d, bytes_per_interval(c, wrong), depth, packets, wrong).map_err(refuse)
        }
        function::FROM_ERRNO => Err(from_errno(a, (b == 0).then_some(c)).refusal()),
        _ => numbers(build(q, wrong).map(|ring| ring.to_vec()).map_err(refuse)),
    }
}

/// A layout's numbers, of n, p, b and the frame size.
fn laid_out([n, p, b, f]: [u64; 4], wrong: Wrong) -> Result<Vec<u64>, u64> {
    let l = layout(n, p, b, f, wrong)?;
    Ok(vec![l.stride, l.data_base, l.data_stride, l.total, 64, l.capacity])
}

/// A question as it is written down (docs/RUNS.md): the name of a C function, and its arguments.
pub fn ask_c(name: &str, arguments: &[u64], wrong: Wrong) -> Result<Vec<u64>, u64> {
    let all = |numbers: Vec<Option<u64>>| numbers.into_iter().flatten().collect::<Vec<u64>>();
    let four = |schedule: Figures| schedule.map(|numbers| all(numbers[..4].to_vec()));
    let depth_of = |urbs: u64, us: u64| if urbs == 0 { [1, us] } else { [0, urbs] };
    let mut q: Question = [0; FUNCTION_NUMBERS];
    let mut asked = |function: u64, arguments: &[u64]| {
        q[0] = function;
        q[1..1 + arguments.len()].copy_from_slice(arguments);
        ask(&q, wrong)
    };
    let figures = match (name, arguments) {
        ("derive", &[speed, interval, bytes, urbs, us, packets]) => {
            let [kind, depth] = depth_of(urbs, us);
            four(asked(function::DERIVE, &[speed, interval, bytes, kind, depth, 1, packets]))
        }
        ("plan", &[speed, attributes, size, interval, urbs, us, packets]) => {
            let [kind, depth] = depth_of(urbs, us);
            four(asked(function::PLAN, &[speed, attributes, size, interval, kind, depth, 1, packets]))
        }
        ("stretch", &[programme, message, flag, capacity, programme_at, message_at]) => {
            return stretch([programme, message], flag, capacity, [programme_at, message_at], wrong);
        }
        (_, arguments) => asked(function::LAYOUT, arguments).map(all),
    };
    figures.map_err(|(number, _)| number)
}

/// All of them are compared.
fn numbers(values: Result<Vec<u64>, (u64, u64)>) -> Figures {
    values.map(|values| values.into_iter().map(Some).collect())
}

/// The kernel's number, 32 bits: 1 to 6 name a speed.
fn speed(raw: u64) -> u64 {
    if raw <= 6 {
        raw
    } else {
        0
    }
}

/// Low 11 bits times (1 + bits 12..11).
fn bytes_per_interval(field: u64, wrong: Wrong) -> u64 {
    let mut times = 1 + field / 2048 % 4;
    if wrong == Wrong::ReservedTimesThree {
        times = times.min(3);
    }
    field % 2048 * times
}

/// 21 speed other than Full, High, Super, SuperPlus; 22 bInterval outside 1..16. The caps of Super and SuperPlus are
/// request 2026-05's.
fn interval(speed: u64, b_interval: u64, wrong: Wrong) -> Result<u64, u64> {
    let (base, most) = match speed {
        2 if wrong == Wrong::FullSpeedCap8192 => (1000, 8192),
        2 => (1000, 1024),
        3 if wrong == Wrong::HighSpeedCap32768 => (125, 32_768),
        3 => (125, 8192),
        5 | 6 if wrong == Wrong::SuperSpeedCap8192 => (125, 8192),
        5 | 6 if wrong == Wrong::SuperSpeedCap16384 => (125, 16_384),
        5 | 6 => (125, 32_768),
        _ => return Err(21),
    };
    if !(1..=16).contains(&b_interval) {
        return Err(22);
    }
    Ok(base * most.min(1 << (b_interval - 1)))
}

enum Depth {
    Urbs(u64),
    Micros(u64),
}

fn depth(kind: u64, value: u64) -> Depth {
    match kind {
        0 => Depth::Urbs(value),
        1 => Depth::Micros(value),
        _ => Depth::Micros(1000 * value),
    }
}

fn derive(
    speed: u64,
    b_interval: u64,
    bytes: u64,
    depth: Depth,
    packets: Option<u64>,
    wrong: Wrong,
) -> Result<Vec<Option<u64>>, u64> {
    let us = interval(speed, b_interval, wrong)?;
    if bytes == 0 {
        return Err(23);
    }
    let packets = packets.unwrap_or(1);
    if packets == 0 {
        return Err(24);
    }
    if packets > 128 {
        return Err(3);
    }
    let urbs = match depth {
        Depth::Urbs(count) => count,
        Depth::Micros(micros) if wrong == Wrong::DepthRoundedDown => micros / us / packets,
        Depth::Micros(micros) => micros.div_ceil(us).div_ceil(packets),
    };
    let urbs = urbs.max(2);
    // None where it gives 25: the Rust wraps there.
    let product = |factors: [u64; 3]| factors.iter().try_fold(1u64, |v, &f| v.checked_mul(f));
    Ok(vec![
        Some(us),
        Some(packets),
        Some(urbs),
        Some(bytes),
        product([us, packets, 1]),
        product([us, packets, urbs]),
        product([urbs, packets, bytes]),
    ])
}

/// 27 interval unknown, 28 packet size unknown, 29 packet bytes above it, 30 endpoint bit 7 set, derive's, opening's.
/// An absent frame size is 1.
fn build(q: &Question, wrong: Wrong) -> Result<[u64; 3], u64> {
    let given = |mark: u64, value: u64| (mark == 1).then_some(value);
    let interval = given(q[2], q[3]).ok_or(27u64)?;
    let size = given(q[4], q[5]).ok_or(28u64)?;
    let bytes = given(q[6], q[7]).unwrap_or(size);
    let inwards = q[8] >= 128;
    if bytes > size && !(inwards && wrong == Wrong::EndpointBeforeBytes) {
        return Err(29);
    }
    if inwards {
        return Err(30);
    }
    let s = derive(speed(q[1]), interval, bytes, depth(q[9], q[10]), given(q[11], q[12]), wrong)?;
    let (packets, urbs) = (s[1].unwrap_or(0), s[2].unwrap_or(0));
    if urbs > 256 || bytes > 49_152 {
        return Err(5);
    }
    let default = if wrong == Wrong::BuilderFrameDefault0 { 0 } else { 1 };
    let frame = given(q[13], q[14]).unwrap_or(default);
    // The block has the length that the ring takes, but no more than a block here can have.
    if layout(urbs, packets, bytes, frame, wrong)?.total > BLOCK_LIMIT {
        return Err(6);
    }
    Ok([urbs, packets, bytes])
}
