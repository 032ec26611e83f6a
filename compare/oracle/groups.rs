// The lines of replay_groups: the original's encode_group and decode_group on groups made here.
use crate::draw::{Bytes, Sum};
use crate::fdd1541::gcr;

// The groups of a part: how many, how many came back as they were (or were refused), the checksum, and that of the
// refused groups' first bad symbols.
struct Part {
    count: u32,
    kept: u32,
    sum: Sum,
    firsts: Sum,
}

// The original does not say which symbol it refuses. So it is asked of each alone, among symbols that it accepts.
fn first_refused(code: [u8; 5]) -> u8 {
    for symbol in 0..8u8 {
        let mut alone = gcr::encode_group(&[0; 4]);
        for bit in 5 * symbol..5 * symbol + 5 {
            let (at, mask) = (usize::from(bit / 8), 0x80 >> (bit % 8));
            alone[at] = alone[at] & !mask | code[at] & mask;
        }
        if gcr::decode_group(&alone).is_none() {
            return symbol;
        }
    }
    panic!("each symbol is accepted alone, and the group is refused");
}

impl Part {
    fn new() -> Part {
        Part { count: 0, kept: 0, sum: Sum::new(), firsts: Sum::new() }
    }

    fn there_and_back(&mut self, group: [u8; 4]) {
        let code = gcr::encode_group(&group);
        self.count += 1;
        self.sum.bytes(&code);
        if gcr::decode_group(&code) == Some(group) {
            self.kept += 1;
        }
    }

    fn decode(&mut self, code: [u8; 5]) {
        self.count += 1;
        match gcr::decode_group(&code) {
            Some(group) => self.sum.bytes(&group),
            None => {
                self.kept += 1;
                self.firsts.byte(first_refused(code));
            }
        }
    }

    fn back(&self, name: &str) -> String {
        format!("{} {} back {} sum {:08X}\n", name, self.count, self.kept, self.sum.0)
    }

    fn refused(&self, name: &str) -> String {
        format!(
            "{} {} refused {} sum {:08X} first symbols sum {:08X}\n",
            name, self.count, self.kept, self.sum.0, self.firsts.0
        )
    }
}

fn five(draw: &mut Bytes) -> [u8; 5] {
    [draw.byte(), draw.byte(), draw.byte(), draw.byte(), draw.byte()]
}

fn four(draw: &mut Bytes) -> [u8; 4] {
    [draw.byte(), draw.byte(), draw.byte(), draw.byte()]
}

// Every pair of first bytes, with two zeros behind it.
fn prefixes() -> String {
    let mut part = Part::new();
    for pair in 0..=65_535u16 {
        part.there_and_back([(pair >> 8) as u8, pair as u8, 0, 0]);
    }
    part.back("prefixes")
}

fn random_groups() -> String {
    let mut part = Part::new();
    let mut draw = Bytes::new(1541);
    for _ in 0..8192 {
        part.there_and_back(four(&mut draw));
    }
    part.back("random")
}

// Codes of random bits: one in 256 is legal.
fn random_codes() -> String {
    let mut part = Part::new();
    let mut draw = Bytes::new(1542);
    for _ in 0..65_536 {
        part.decode(five(&mut draw));
    }
    part.refused("codes")
}

// The code of a random group with one of its forty bits changed.
fn damaged_codes() -> String {
    let mut part = Part::new();
    let mut draw = Bytes::new(1543);
    for _ in 0..8192 {
        let mut code = gcr::encode_group(&four(&mut draw));
        let bit = draw.byte() % 40;
        code[usize::from(bit / 8)] ^= 0x80 >> (bit % 8);
        part.decode(code);
    }
    part.refused("damaged")
}

pub fn lines() -> Vec<u8> {
    [prefixes(), random_groups(), random_codes(), damaged_codes()].concat().into_bytes()
}
