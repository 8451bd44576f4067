//! The block: layout, header fields, descriptors.

use form::Opening;

use super::wrong::Wrong;

const STATUS: usize = 4;
const BUFFER_LENGTH: usize = 24;
const ACTUAL_LENGTH: usize = 28;
const ERROR_COUNT: usize = 40;
const COOKIE: usize = 48;
const HEADER: usize = 56;
const DESCRIPTOR: usize = 12;

/// Layout (RingLayout::new), in the paper's order.
#[derive(Clone, Copy)]
pub struct Layout {
    pub stride: u64,
    pub data_base: u64,
    pub data_stride: u64,
    pub total: u64,
    /// How far commit fills a packet: the largest multiple of the frame size not above b.
    pub fill: u64,
    /// p times that.
    pub capacity: u64,
}

/// 33: the frame size is zero or above b.
pub fn refuses_frame(f: u64, b: u64, wrong: Wrong) -> bool {
    match wrong {
        Wrong::FrameOfAPacketRefused => f == 0 || f >= b,
        Wrong::LongFrameTaken => f == 0,
        _ => f == 0 || f > b,
    }
}

/// Refused in order: 1 n below 2; 2 p or b zero; 3 p above 128; 4 anything above 2^64 - 1; 33.
pub fn layout(n: u64, p: u64, b: u64, f: u64, wrong: Wrong) -> Result<Layout, u64> {
    if n < 2 {
        return Err(1);
    }
    if p == 0 || b == 0 {
        return Err(2);
    }
    if p > 128 {
        return Err(3);
    }
    let raised = |v: u64, to: u64| v.checked_next_multiple_of(to).ok_or(4u64);
    let times = |v: u64, w: u64| v.checked_mul(w).ok_or(4u64);
    let no_frame = refuses_frame(f, b, wrong);
    if no_frame && wrong == Wrong::FrameSizeBeforeOverflow {
        return Err(33);
    }
    let stride = raised(56 + 12 * p, 8)?;
    let data_base = raised(times(n, stride)?, 64)?;
    let mut payload = times(p, b)?;
    if wrong == Wrong::StrideOfTheCapacity && !no_frame {
        payload = p * (b / f * f);
    }
    let data_stride = raised(payload, 64)?;
    let total = data_base.checked_add(times(n, data_stride)?).ok_or(4u64)?;
    if no_frame {
        return Err(33);
    }
    let fill = b / f * f;
    let capacity = if wrong == Wrong::CapacityRoundedOnce { p * b / f * f } else { p * fill };
    Ok(Layout { stride, data_base, data_stride, total, fill, capacity })
}

/// A block and where things lie in it.
pub struct Block<'a> {
    pub bytes: &'a mut [u8],
    pub layout: Layout,
    pub p: u64,
}

impl Block<'_> {
    fn header(&self, i: u64) -> usize {
        (i * self.layout.stride) as usize
    }

    fn get(&self, at: usize) -> u32 {
        u32::from_le_bytes(self.bytes[at..at + 4].try_into().expect("four bytes"))
    }

    fn put(&mut self, at: usize, value: u32) {
        self.bytes[at..at + 4].copy_from_slice(&value.to_le_bytes());
    }

    fn put8(&mut self, at: usize, value: u64) {
        self.bytes[at..at + 8].copy_from_slice(&value.to_le_bytes());
    }

    /// The block becomes zero, then each header gets its fields.
    pub fn open(&mut self, o: &Opening, wrong: Wrong) {
        let payload = wrong == Wrong::OpeningLengthOfThePayload;
        let length = if payload { o.p * o.b } else { self.layout.capacity };
        self.bytes.fill(0);
        for i in 0..o.n {
            let at = self.header(i);
            self.bytes[at + 1] = o.endpoint as u8;
            self.put(at + 8, 2);
            let buffer = o.base + self.layout.data_base + i * self.layout.data_stride;
            self.put8(at + 16, buffer);
            self.put(at + BUFFER_LENGTH, length as u32);
            self.put(at + 36, o.p as u32);
            self.put8(at + COOKIE, i);
        }
    }

    /// Each descriptor gets length, actual 0, status 0; buffer length = total; actual length, status, error count 0.
    pub fn commit(&mut self, i: u64, lengths: &[u64], keep: Option<usize>) {
        let header = self.header(i);
        for (k, &length) in lengths.iter().enumerate() {
            let at = header + HEADER + DESCRIPTOR * k;
            self.put(at, length as u32);
            self.put(at + 4, 0);
            self.put(at + 8, 0);
        }
        let total: u64 = lengths.iter().sum();
        let fields = [(BUFFER_LENGTH, total as u32), (ACTUAL_LENGTH, 0), (STATUS, 0), (ERROR_COUNT, 0)];
        for (at, value) in fields {
            if keep != Some(at) {
                self.put(header + at, value);
            }
        }
    }

    pub const KEEP_STATUS: usize = STATUS;
    pub const KEEP_BUFFER_LENGTH: usize = BUFFER_LENGTH;

    /// Fills that many bytes of slot i's payload.
    pub fn silence(&mut self, i: u64, count: u64, byte: u8) {
        let at = (self.layout.data_base + i * self.layout.data_stride) as usize;
        self.bytes[at..at + count as usize].fill(byte);
    }

    /// max(0, buffer length).
    pub fn buffer_length(&self, i: u64) -> u64 {
        positive(self.get(self.header(i) + BUFFER_LENGTH))
    }

    pub fn cookie(&self, i: u64) -> u64 {
        let at = self.header(i) + COOKIE;
        u64::from(self.get(at)) | u64::from(self.get(at + 4)) << 32
    }

    pub fn status(&self, i: u64) -> i32 {
        self.get(self.header(i) + STATUS) as i32
    }

    pub fn actual_length(&self, i: u64) -> u64 {
        positive(self.get(self.header(i) + ACTUAL_LENGTH))
    }

    pub fn error_count(&self, i: u64) -> u32 {
        self.get(self.header(i) + ERROR_COUNT)
    }

    /// Length and actual length of each packet.
    pub fn packets(&self, i: u64) -> Vec<(u64, u64)> {
        let first = self.header(i) + HEADER;
        let packet = |k: u64| {
            let at = first + DESCRIPTOR * k as usize;
            (u64::from(self.get(at)), u64::from(self.get(at + 4)))
        };
        (0..self.p).map(packet).collect()
    }
}

/// max(0, v), v read as signed.
pub fn positive(v: u32) -> u64 {
    (v as i32).max(0) as u64
}
