// Rows carried out in order on two buffers. Lower and upper case letters differ: a row either changes a buffer and
// prints nothing, or asks the original and prints one line.
use crate::draw::Bytes;
use crate::fdd1541::gcr;
use crate::rows::{self, Row};

// The bytes that are asked about, and what payloads, codes and blocks are taken from.
pub const TARGET: usize = 0xAB000;
pub const SOURCE: usize = 0x34000;
// Fixed places in the source: error codes, ring lengths (four bytes each, low byte first), zones, free room.
pub const CODES: usize = 0x33000;
pub const LENGTHS: usize = 0x33400;
pub const ZONES: usize = 0x33800;
pub const SCRATCH: usize = 0x33A00;

// Who is asked: each answer is a line, with what was lent as it then is.
pub trait Asks {
    fn heading(&mut self, row: &str) -> String;
    fn encode_block(&mut self, bytes: &[u8], room: &mut [u8]) -> String;
    fn decode_block(&mut self, code: &[u8], room: &mut [u8]) -> String;
    fn build(&mut self, track_and_ids: [u8; 3], payloads: &[u8], codes: &[u8], room: &mut [u8]) -> String;
    fn scan(&mut self, ring: &[u8], track: u8, start: u64, rows: usize) -> String;
    fn read(&mut self, ring: &[u8], track: u8, start: u64) -> String;
    fn sector(&mut self, ring: &[u8], track: u8, sector: u8, unique: bool) -> String;
    fn replace(&mut self, ring: &mut [u8], track: u8, sector: u8, bytes: &[u8; 256], unique: bool) -> String;
    fn orbit(&mut self, window: &[u8], zone: u8) -> String;
    fn nib(&mut self, file: &[u8]) -> String;
    fn slot(&mut self, file: &[u8], slot: u64) -> String;
    fn encode_nib(&mut self, lengths: &[u64], zones: &[u8], joined: &[u8], room: &mut [u8]) -> String;
    fn clear(&mut self, image: &mut [u8], kind: u32) -> String;
}

struct Machine<'a> {
    target: Vec<u8>,
    source: Vec<u8>,
    asks: &'a mut dyn Asks,
}

fn part(bytes: &[u8], at: u32, n: u32) -> &[u8] {
    &bytes[at as usize..at as usize + n as usize]
}

fn part_mut(bytes: &mut [u8], at: u32, n: u32) -> &mut [u8] {
    &mut bytes[at as usize..at as usize + n as usize]
}

impl Machine<'_> {
    // The buffer that the last number of a row names.
    fn named(&mut self, r: &Row) -> &mut [u8] {
        if r.f[5] == 0 {
            &mut self.target
        } else {
            &mut self.source
        }
    }

    fn ring(&mut self, r: &Row) -> &mut [u8] {
        part_mut(&mut self.target, r.f[0], r.f[1])
    }

    fn store(&mut self, r: &Row) {
        part_mut(self.named(r), r.f[0], r.f[1]).fill(r.f[2] as u8);
    }

    fn fill(&mut self, r: &Row) {
        let mut draw = Bytes::new(r.f[2]);
        for byte in part_mut(self.named(r), r.f[0], r.f[1]) {
            *byte = draw.byte();
        }
    }

    fn or_fill(&mut self, r: &Row) {
        let mut draw = Bytes::new(r.f[2]);
        for byte in part_mut(self.named(r), r.f[0], r.f[1]) {
            *byte |= draw.byte();
        }
    }

    fn put(&mut self, r: &Row) {
        let literal = (u64::from(r.f[2]) << 32 | u64::from(r.f[3])).to_be_bytes();
        part_mut(self.named(r), r.f[0], r.f[1]).copy_from_slice(&literal[..r.f[1] as usize]);
    }

    // In ascending order, so that a part copied onto its own end repeats.
    fn copy(&mut self, r: &Row) {
        let (at, n, from) = (r.f[0] as usize, r.f[1] as usize, r.f[2] as usize);
        let bytes = self.named(r);
        for i in 0..n {
            bytes[at + i] = bytes[from + i];
        }
    }

    fn set_bits(&mut self, r: &Row, value: u8) {
        let (bit, n) = (r.f[2] as usize, r.f[3] as usize);
        let ring = self.ring(r);
        for i in 0..n {
            gcr::set_bit(ring, bit + i, value);
        }
    }

    fn flip_bits(&mut self, r: &Row) {
        let (n, mut draw) = (r.f[2], Bytes::new(r.f[3]));
        let ring = self.ring(r);
        for _ in 0..n {
            let bit = (draw.state() / 16) as usize % (ring.len() * 8);
            let value = 1 - gcr::bit(ring, bit);
            gcr::set_bit(ring, bit, value);
        }
    }

    fn write_code(&mut self, r: &Row) {
        let bytes = part(&self.source, r.f[3], r.f[4]).to_vec();
        gcr::write_code(self.ring(r), r.f[2] as usize, &bytes);
    }

    // The check byte of a data block that stands in the source.
    fn check_byte(&mut self, r: &Row) {
        let block = part_mut(&mut self.source, r.f[0], 260);
        block[257] = block[1..257].iter().fold(0, |sum, byte| sum ^ byte);
    }

    fn encode_block(&mut self, r: &Row) -> String {
        self.asks.encode_block(part(&self.source, r.f[2], r.f[3]), part_mut(&mut self.target, r.f[0], r.f[1]))
    }

    fn decode_block(&mut self, r: &Row) -> String {
        self.asks.decode_block(part(&self.source, r.f[2], r.f[3]), part_mut(&mut self.target, r.f[0], r.f[1]))
    }

    fn build(&mut self, r: &Row) -> String {
        let payloads = part(&self.source, r.f[3], r.f[4]);
        let codes = part(&self.source, CODES as u32, r.f[5]);
        let [_, track, id1, id2] = r.f[2].to_be_bytes();
        self.asks.build([track, id1, id2], payloads, codes, part_mut(&mut self.target, r.f[0], r.f[1]))
    }

    fn replace(&mut self, r: &Row, unique: bool) -> String {
        let bytes: [u8; 256] = part(&self.source, r.f[4], 256).try_into().expect("256 bytes");
        let ring = part_mut(&mut self.target, r.f[0], r.f[1]);
        self.asks.replace(ring, r.f[2] as u8, r.f[3] as u8, &bytes, unique)
    }

    fn encode(&mut self, r: &Row) -> String {
        let lengths: Vec<u64> = part(&self.source, LENGTHS as u32, 4 * r.f[4])
            .chunks(4)
            .map(|c| u64::from(u32::from_le_bytes(c.try_into().expect("four bytes"))))
            .collect();
        let zones = part(&self.source, ZONES as u32, r.f[5]);
        let rings = part(&self.source, r.f[2], r.f[3]);
        self.asks.encode_nib(&lengths, zones, rings, part_mut(&mut self.target, r.f[0], r.f[1]))
    }

    // The line that a row about a part of the target prints.
    fn ask(&mut self, r: &Row) -> String {
        let part = part_mut(&mut self.target, r.f[0], r.f[1]);
        let track = r.f[2] as u8;
        let start = u64::from(r.f[3]) << 32 | u64::from(r.f[4]);
        match r.letter {
            b's' => self.asks.scan(part, track, start, r.f[5] as usize),
            b'r' => self.asks.read(part, track, start),
            b'u' => self.asks.sector(part, track, r.f[3] as u8, true),
            b'c' => self.asks.sector(part, track, r.f[3] as u8, false),
            b'o' => self.asks.orbit(part, r.f[2] as u8),
            b'n' => self.asks.nib(part),
            b'w' => self.asks.slot(part, u64::from(r.f[2])),
            b'x' => self.asks.clear(part, r.f[2]),
            letter => panic!("no row {}", letter as char),
        }
    }

    // The line that a row prints, empty where it prints none.
    fn turn(&mut self, r: &Row) -> String {
        match r.letter {
            b'S' => self.store(r),
            b'F' => self.fill(r),
            b'O' => self.or_fill(r),
            b'P' => self.put(r),
            b'C' => self.copy(r),
            b'Z' => self.set_bits(r, 0),
            b'I' => self.set_bits(r, 1),
            b'X' => self.flip_bits(r),
            b'G' => self.write_code(r),
            b'Q' => self.check_byte(r),
            b'T' => drop(self.build(r)),
            b'b' => return self.encode_block(r),
            b'd' => return self.decode_block(r),
            b'B' => return self.build(r),
            b'U' => return self.replace(r, true),
            b'K' => return self.replace(r, false),
            b'e' => return self.encode(r),
            _ => return self.ask(r),
        }
        String::new()
    }
}

pub fn run(input: &[u8], asks: &mut dyn Asks) -> Vec<u8> {
    let mut machine = Machine { target: vec![0; TARGET], source: vec![0; SOURCE], asks };
    let mut out = Vec::new();
    assert!(input.len() % rows::WIDTH == 0, "rows of {} bytes", rows::WIDTH);
    for row in input.chunks(rows::WIDTH) {
        let line = if row[0] == b'#' {
            machine.asks.heading(std::str::from_utf8(row).expect("text"))
        } else {
            machine.turn(&rows::parse(row))
        };
        out.extend_from_slice(line.as_bytes());
    }
    out
}
