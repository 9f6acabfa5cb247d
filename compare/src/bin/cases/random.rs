//! Random numbers of all magnitudes, and random damage.

/// A generator of 64-bit numbers.
pub struct Random(u64);

impl Random {
    /// The generator of a case.
    pub fn of_case(seed: u64, number: u64) -> Random {
        let mixed = seed.wrapping_mul(0x9e37_79b9_7f4a_7c15) ^ number.wrapping_mul(0xd1b5_4a32_d192_ed03);
        let mut random = Random(mixed | 1);
        for _ in 0..8 {
            random.next();
        }
        random
    }

    fn next(&mut self) -> u64 {
        self.0 ^= self.0 << 13;
        self.0 ^= self.0 >> 7;
        self.0 ^= self.0 << 17;
        self.0.wrapping_mul(0x2545_f491_4f6c_dd1d)
    }

    /// A number below an end.
    pub fn below(&mut self, end: u64) -> u64 {
        ((u128::from(self.next()) * u128::from(end)) >> 64) as u64
    }

    /// Whether one of so many throws falls.
    pub fn one_in(&mut self, throws: u64) -> bool {
        self.below(throws) == 0
    }

    /// One of some choices, each as likely.
    pub fn one_of<'a, T: ?Sized>(&mut self, choices: &[&'a T]) -> &'a T {
        choices[self.below(choices.len() as u64) as usize]
    }

    /// A number of at most so many bits, each length as likely.
    pub fn number(&mut self, most: u64) -> u64 {
        match self.below(most + 1) {
            0 => 0,
            bits => self.next() >> (64 - bits),
        }
    }

    /// A number just below, at or just above a power of two.
    pub fn near_power(&mut self, most: u64) -> u64 {
        let power = 1u64.checked_shl(self.below(most + 1) as u32).unwrap_or(u64::MAX);
        power.saturating_sub(2).saturating_add(self.below(5))
    }

    /// A value of about so many bits at most.
    pub fn value(&mut self, most: u64) -> u64 {
        match self.below(32) {
            0 if most == 64 => u64::MAX - self.below(3),
            0..=5 => self.near_power(most),
            6..=9 => self.below(6),
            _ => self.number(most),
        }
    }

    /// How a number is spelled: seldom with zeros before it.
    pub fn spelled(&mut self, number: u64) -> String {
        if self.one_in(32) { format!("{number:025}") } else { number.to_string() }
    }

    /// Changes, drops or adds one of a text's first bytes.
    pub fn mutate(&mut self, text: &mut Vec<u8>, first: usize) {
        const BYTES: &[u8] = b"\n\r,.#=+- \"0159eETagABC/[]:\0\xff";
        if text.is_empty() {
            return;
        }
        let at = self.below(text.len().min(first) as u64) as usize;
        let byte = match self.below(4) {
            0 => self.below(256) as u8,
            1 => text[at] ^ (1 << self.below(8)),
            _ => BYTES[self.below(BYTES.len() as u64) as usize],
        };
        match self.below(4) {
            0 => text.insert(at, byte),
            1 => drop(text.remove(at)),
            _ => text[at] = byte,
        }
    }
}
