//! What the scripted kernel writes into the block, and the addresses that it names.

use crate::record::Player;

impl Player {
    /// What the kernel writes into slot i's header and descriptors, and the address that it names.
    pub(crate) fn notice(&mut self, i: u64) -> u64 {
        let header = i * self.stride;
        let odd = self.rng.percent(self.rates.odd_figures);
        let requested = self.field(header + 24);
        let status = match self.rng.below(16) {
            0 if odd => -19,
            1 if odd => -108,
            2 if odd => -71,
            3 if odd => -2,
            4 if odd => self.odd_number() as i32,
            _ => 0,
        };
        self.write(header + 4, status as u32);
        let actual = if odd { self.odd_number() } else { requested };
        self.write(header + 28, actual);
        if odd {
            let errors = self.odd_number();
            self.write(header + 40, errors);
        }
        self.packets(header, odd);
        self.cookie(i, header);
        let tag = if self.opening.tagged == 1 { self.rng.below(256) << 56 } else { 0 };
        (self.opening.base + header) | tag
    }

    /// Actual lengths of some packets: all of them full where the slot is small, else a few.
    fn packets(&mut self, header: u64, odd: bool) {
        let p = self.opening.p;
        let first = if p <= 8 { 0 } else { self.rng.below(p - 7) };
        for k in first..p.min(first + 8) {
            let at = header + 56 + 12 * k;
            let length = self.field(at);
            let mut actual = length;
            if odd && self.rng.percent(50) {
                actual = self.rng.below(u64::from(length) + 2) as u32;
            }
            if odd && self.rng.percent(10) {
                actual = self.odd_number();
            }
            self.write(at + 4, actual);
            if odd && self.rng.percent(5) {
                let length = self.odd_number();
                self.write(at, length);
            }
            if odd && self.rng.percent(20) {
                self.write(at + 8, -71i32 as u32);
            }
        }
    }

    /// Now and then a wrong cookie, in one half or the other; one that is wrong is put right sooner or later.
    fn cookie(&mut self, i: u64, header: u64) {
        if self.rng.percent(self.rates.cookie) {
            let half = 4 * self.rng.below(2);
            let value = self.rng.below(4) as u32;
            self.write(header + 48 + half, value);
        } else if self.rng.percent(70) {
            if self.field(header + 48) != i as u32 {
                self.write(header + 48, i as u32);
            }
            if self.field(header + 52) != 0 {
                self.write(header + 52, 0);
            }
        }
    }

    /// An address that is none of ours, or only nearly.
    pub(crate) fn foreign(&mut self) -> u64 {
        let (base, stride, n) = (self.opening.base, self.stride, self.opening.n);
        let inside = base + stride * self.rng.below(n);
        match self.rng.below(9) {
            0 => 0,
            1 => base - 1 - self.rng.below(100),
            2 => base + n * stride,
            3 => base + n * stride + stride * self.rng.below(4),
            4 => inside + 1 + self.rng.below(stride - 1),
            5 => self.rng.any(),
            6 => inside | (1 + self.rng.below(255)) << 56,
            7 => self.spoilt(inside),
            _ => base + n * stride - 1,
        }
    }

    /// The header's own address, after its cookie was made another slot's.
    fn spoilt(&mut self, address: u64) -> u64 {
        let header = address - self.opening.base;
        let another = header / self.stride + 1 + self.rng.below(3);
        self.write(header + 48, another as u32);
        address
    }

    /// Any 32 bits, small and extreme ones more often.
    pub(crate) fn odd_number(&mut self) -> u32 {
        match self.rng.below(6) {
            0 => self.rng.any() as u32,
            1 => (-(self.rng.below(200) as i64)) as u32,
            2 => i32::MAX as u32,
            3 => i32::MIN as u32,
            _ => self.rng.below(2000) as u32,
        }
    }

    /// Bytes anywhere in the block, headers included: any may stand there.
    pub(crate) fn scribble(&mut self) {
        if self.rng.percent(self.rates.scribbles) {
            let offset = self.rng.below(self.opening.block_len - 3);
            let value = self.odd_number();
            self.write(offset, value);
        }
    }
}
