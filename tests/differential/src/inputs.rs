//! What is asked: all short inputs, every length, random ones, and messages with one byte changed, cut or added.

/// Marsaglia's xorshift64: the same seed gives the same inputs everywhere.
pub struct Random(u64);

impl Random {
    pub fn new(seed: u64) -> Self {
        Self(seed)
    }

    fn word(&mut self) -> u64 {
        self.0 ^= self.0 << 13;
        self.0 ^= self.0 >> 7;
        self.0 ^= self.0 << 17;
        self.0
    }

    pub fn byte(&mut self) -> u8 {
        (self.word() >> 56) as u8
    }

    /// Below the bound, which is not 0.
    pub fn below(&mut self, bound: usize) -> usize {
        (self.word() >> 16) as usize % bound
    }

    pub fn one_of<T: Copy>(&mut self, all: &[T]) -> T {
        all[self.below(all.len())]
    }

    pub fn bytes(&mut self, length: usize) -> Vec<u8> {
        (0..length).map(|_| self.byte()).collect()
    }

    /// Most of them zeros, so that more than one field is wrong at once.
    pub fn sparse(&mut self, length: usize) -> Vec<u8> {
        let byte = |_| match self.below(4) {
            0 => self.byte(),
            _ => 0,
        };
        (0..length).map(byte).collect()
    }

    pub fn array<const N: usize>(&mut self) -> [u8; N] {
        std::array::from_fn(|_| self.byte())
    }
}

/// All of up to two bytes.
pub fn each_short(mut ask: impl FnMut(&[u8])) {
    ask(&[]);
    for first in 0..=u8::MAX {
        ask(&[first]);
        for second in 0..=u8::MAX {
            ask(&[first, second]);
        }
    }
}

/// Every length: zeros, ones, and random bytes.
pub fn each_length(longest: usize, random: &mut Random, mut ask: impl FnMut(&[u8])) {
    for length in 0..=longest {
        ask(&vec![0x00; length]);
        ask(&vec![0xFF; length]);
        for _ in 0..20 {
            ask(&random.bytes(length));
        }
    }
}

/// Cut at every place.
pub fn each_prefix(data: &[u8], mut ask: impl FnMut(&[u8])) {
    for length in 0..=data.len() {
        ask(&data[..length]);
    }
}

/// Every value of each byte of a message, on each of its lengths.
pub fn each_byte(message: &[u8], mut ask: impl FnMut(&[u8])) {
    for length in 1..=message.len() {
        let mut data = message[..length].to_vec();
        for place in 0..length {
            for value in 0..=u8::MAX {
                data[place] = value;
                ask(&data);
            }
            data[place] = message[place];
        }
    }
}

/// The message with one byte changed, with two changed, with one cut or all from a place on, with one added.
pub fn damaged(message: &[u8], random: &mut Random) -> [Vec<u8>; 4] {
    let [mut changed, mut cut, mut added] = [(); 3].map(|()| message.to_vec());
    if !message.is_empty() {
        change(&mut changed, random);
        match random.below(2) {
            0 => drop(cut.remove(random.below(message.len()))),
            _ => cut.truncate(random.below(message.len())),
        }
    }
    let mut twice = changed.clone();
    if !message.is_empty() {
        change(&mut twice, random);
    }
    added.insert(random.below(message.len() + 1), random.byte());
    [changed, twice, cut, added]
}

/// One byte of some.
fn change(data: &mut [u8], random: &mut Random) {
    let place = random.below(data.len());
    data[place] = match random.below(4) {
        0 => 0x00,
        1 => 0xC0,
        2 => data[place] ^ 1 << random.below(8),
        _ => random.byte(),
    };
}
