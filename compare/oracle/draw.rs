// What both sides share: the generator, the checksum, and the case writer's own random numbers.

// One step of the generator; the byte that a state stands for is its highest.
pub fn step(state: u32) -> u32 {
    state.wrapping_mul(1_664_525).wrapping_add(1_013_904_223)
}

pub fn byte_of(state: u32) -> u8 {
    (state >> 24) as u8
}

pub struct Bytes {
    state: u32,
}

impl Bytes {
    pub fn new(seed: u32) -> Bytes {
        Bytes { state: seed }
    }

    pub fn state(&mut self) -> u32 {
        self.state = step(self.state);
        self.state
    }

    pub fn byte(&mut self) -> u8 {
        byte_of(self.state())
    }
}

// FNV-1a of 32 bits.
pub struct Sum(pub u32);

impl Sum {
    pub fn new() -> Sum {
        Sum(0x811C_9DC5)
    }

    pub fn byte(&mut self, byte: u8) {
        self.0 = (self.0 ^ u32::from(byte)).wrapping_mul(16_777_619);
    }

    pub fn bytes(&mut self, bytes: &[u8]) {
        for &byte in bytes {
            self.byte(byte);
        }
    }

    // Eight bytes, the low one first.
    pub fn number(&mut self, n: u64) {
        self.bytes(&n.to_le_bytes());
    }
}

pub fn sum_of(bytes: &[u8]) -> u32 {
    let mut sum = Sum::new();
    sum.bytes(bytes);
    sum.0
}

// Xorshift of 64 bits: chooses the cases; the programs never see it.
pub struct Chooser(u64);

impl Chooser {
    pub fn new(seed: u64) -> Chooser {
        let mut c = Chooser(seed.wrapping_mul(0x9E37_79B9_7F4A_7C15) | 1);
        for _ in 0..8 {
            c.next();
        }
        c
    }

    pub fn next(&mut self) -> u64 {
        self.0 ^= self.0 << 13;
        self.0 ^= self.0 >> 7;
        self.0 ^= self.0 << 17;
        self.0
    }

    pub fn below(&mut self, n: u64) -> u64 {
        (self.next() >> 11) % n
    }

    // A number from a to b, both included.
    pub fn within(&mut self, a: u64, b: u64) -> u64 {
        a + self.below(b - a + 1)
    }

    pub fn seed(&mut self) -> u32 {
        (self.next() >> 32) as u32
    }

    pub fn byte(&mut self) -> u8 {
        (self.next() >> 40) as u8
    }

    pub fn one_of<T: Copy>(&mut self, list: &[T]) -> T {
        list[self.below(list.len() as u64) as usize]
    }
}
