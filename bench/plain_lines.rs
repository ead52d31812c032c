//! Row lines of `plain_run.rs`, made of blocks that are always written whole.

use std::io::Write;

const PAGE: usize = 65_536;

/// A few bytes of a line that stand in many, and how many they are.
pub struct NameBlock {
    bytes: [u8; 40],
    length: usize,
}

impl NameBlock {
    pub fn of(text: &str) -> NameBlock {
        let mut bytes = [0; 40];
        bytes[..text.len()].copy_from_slice(text.as_bytes());
        NameBlock { bytes, length: text.len() }
    }
}

/// The names of tasks, and that of nobody behind them.
pub fn name_blocks<'a>(names: impl Iterator<Item = &'a str>) -> Vec<NameBlock> {
    names
        .chain(["-"])
        .map(|name| NameBlock::of(&format!(" {name}\n")))
        .collect()
}

/// The digits of a number below 10^8, with zeros in front.
#[inline(always)]
fn eight_digits(n: u64) -> [u8; 8] {
    // two numbers below 10^4, then four below 100, then eight digits, each in its part of the word
    let halves = (n / 10_000) | (n % 10_000) << 32;
    let tens = (halves * 10_486 >> 20) & 0x7f_0000_007f;
    let pairs = tens | (halves - 100 * tens) << 16;
    let fronts = (pairs * 103 >> 10) & 0x000f_000f_000f_000f;
    let digits = fronts | (pairs - 10 * fronts) << 8;
    (digits | 0x3030_3030_3030_3030).to_le_bytes()
}

/// A number's digits.
#[derive(Clone, Copy)]
pub struct Digits {
    bytes: [u8; 48],
    length: usize,
    /// What stands before the last eight digits, and how many digits that has.
    front: u64,
    front_length: usize,
}

impl Digits {
    pub fn zero() -> Digits {
        let mut bytes = [0; 48];
        bytes[0] = b'0';
        Digits { bytes, length: 1, front: u64::MAX, front_length: 0 }
    }

    /// Writes n with no zeros in front.
    fn put_short(&mut self, n: u64) -> usize {
        let length = n.checked_ilog10().map_or(1, |log| log as usize + 1);
        let mut rest = n;
        for at in (0..length).rev() {
            self.bytes[at] = b'0' + (rest % 10) as u8;
            rest /= 10;
        }
        length
    }

    #[inline(always)]
    fn put_eight(&mut self, at: usize, n: u64) {
        self.bytes[at..at + 8].copy_from_slice(&eight_digits(n));
    }

    /// Becomes n, which is at least 10^8: its front is written where it is another one.
    #[inline(always)]
    fn set_long(&mut self, front: u64, last: u64) {
        if front != self.front {
            self.front = front;
            self.front_length = self.put_short(front);
        }
        self.put_eight(self.front_length, last);
        self.length = self.front_length + 8;
    }

    #[inline(always)]
    pub fn set_short(&mut self, n: u64) {
        if n < 100_000_000 {
            self.front = u64::MAX;
            self.length = self.put_short(n);
        } else {
            self.set_long(n / 100_000_000, n % 100_000_000);
        }
    }

    pub fn set_wide(&mut self, n: u128) {
        const STEP: u128 = 10_000_000_000_000_000;
        if n < STEP {
            return self.set_short(n as u64);
        }
        let (front, last) = (n / STEP, (n % STEP) as u64);
        self.front = u64::MAX;
        let length = if front < STEP {
            self.put_short_by_eights(front as u64)
        } else {
            let first = self.put_short_by_eights((front / STEP) as u64);
            let middle = (front % STEP) as u64;
            self.put_eight(first, middle / 100_000_000);
            self.put_eight(first + 8, middle % 100_000_000);
            first + 16
        };
        self.put_eight(length, last / 100_000_000);
        self.put_eight(length + 8, last % 100_000_000);
        self.length = length + 16;
    }

    fn put_short_by_eights(&mut self, n: u64) -> usize {
        if n < 100_000_000 {
            return self.put_short(n);
        }
        let length = self.put_short_by_eights(n / 100_000_000);
        self.put_eight(length, n % 100_000_000);
        length + 8
    }
}

/// Standard output by pages.
pub struct Page {
    bytes: Vec<u8>,
    length: usize,
}

impl Page {
    pub fn new() -> Page {
        Page { bytes: vec![0; PAGE + 256], length: 0 }
    }

    /// A row line: blocks are written whole, and count as long as they are.
    #[inline(always)]
    pub fn add_row(&mut self, lane: &NameBlock, start: &Digits, end: &Digits, name: &NameBlock) {
        let line: &mut [u8; 192] = (&mut self.bytes[self.length..self.length + 192]).try_into().unwrap();
        line[..8].copy_from_slice(&lane.bytes[..8]);
        let mut at = lane.length;
        line[at..at + 24].copy_from_slice(&start.bytes[..24]);
        if start.length > 24 {
            line[at + 24..at + 48].copy_from_slice(&start.bytes[24..48]);
        }
        at += start.length;
        line[at] = b' ';
        line[at + 1..at + 25].copy_from_slice(&end.bytes[..24]);
        if end.length > 24 {
            line[at + 25..at + 49].copy_from_slice(&end.bytes[24..48]);
        }
        at += end.length + 1;
        line[at..at + 16].copy_from_slice(&name.bytes[..16]);
        if name.length > 16 {
            line[at + 16..at + 40].copy_from_slice(&name.bytes[16..]);
        }
        self.length += at + name.length;
        if self.length >= PAGE {
            self.flush();
        }
    }

    pub fn add(&mut self, text: &str) {
        for part in text.as_bytes().chunks(PAGE) {
            if self.length + part.len() > PAGE {
                self.flush();
            }
            self.bytes[self.length..self.length + part.len()].copy_from_slice(part);
            self.length += part.len();
        }
    }

    pub fn flush(&mut self) {
        std::io::stdout().lock().write_all(&self.bytes[..self.length]).unwrap();
        self.length = 0;
    }
}
