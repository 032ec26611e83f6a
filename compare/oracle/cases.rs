// Writes rows: the words that the cases of each kind are made of.
use crate::draw::Chooser;
use crate::fdd1541::gcr;
use crate::machine::{CODES, SCRATCH, SOURCE, TARGET};
use crate::rows;

pub const ZONE_TRACKS: [u8; 4] = [1, 18, 25, 31];
// A block of 260 bytes and a header of 8 in the source, from which code is written.
const BLOCK: u32 = SCRATCH as u32;
const HEADER: u32 = SCRATCH as u32 + 0x120;

pub struct Cases {
    pub rows: String,
    pub choose: Chooser,
    pub scale: u64,
}

// A part of the target.
#[derive(Clone, Copy)]
pub struct Ring {
    pub at: u32,
    pub n: u32,
}

impl Ring {
    pub fn new(at: u32, n: u32) -> Ring {
        Ring { at, n }
    }

    pub fn bits(self) -> u64 {
        8 * u64::from(self.n)
    }
}

#[derive(Clone, Copy)]
pub enum Buffer {
    Target = 0,
    Source = 1,
}

impl Cases {
    pub fn row(&mut self, letter: char, fields: &[u32]) {
        self.rows.push_str(&rows::text(letter, fields));
    }

    pub fn heading(&mut self, words: &str) {
        self.rows.push_str(&rows::heading(words));
    }

    pub fn store(&mut self, buffer: Buffer, at: u32, n: u32, byte: u8) {
        self.row('S', &[at, n, u32::from(byte), 0, 0, buffer as u32]);
    }

    pub fn fill(&mut self, buffer: Buffer, at: u32, n: u32) {
        let seed = self.choose.seed();
        self.row('F', &[at, n, seed, 0, 0, buffer as u32]);
    }

    pub fn or_fill(&mut self, at: u32, n: u32) {
        let seed = self.choose.seed();
        self.row('O', &[at, n, seed, 0, 0, Buffer::Target as u32]);
    }

    pub fn put(&mut self, buffer: Buffer, at: u32, bytes: &[u8]) {
        for (k, part) in bytes.chunks(8).enumerate() {
            let mut eight = [0u8; 8];
            eight[..part.len()].copy_from_slice(part);
            let both = u64::from_be_bytes(eight);
            let to = at + 8 * k as u32;
            self.row('P', &[to, part.len() as u32, (both >> 32) as u32, both as u32, 0, buffer as u32]);
        }
    }

    pub fn copy(&mut self, at: u32, n: u32, from: u32) {
        self.row('C', &[at, n, from]);
    }

    pub fn zeros(&mut self, ring: Ring, bit: u64, n: u64) {
        self.row('Z', &[ring.at, ring.n, bit as u32, n as u32]);
    }

    pub fn ones(&mut self, ring: Ring, bit: u64, n: u64) {
        self.row('I', &[ring.at, ring.n, bit as u32, n as u32]);
    }

    pub fn flip(&mut self, ring: Ring, n: u64) {
        let seed = self.choose.seed();
        self.row('X', &[ring.at, ring.n, n as u32, seed]);
    }

    // Eight bytes of a header, in the code, at a bit of a ring.
    pub fn header(&mut self, ring: Ring, bit: u64, bytes: &[u8; 8]) {
        self.put(Buffer::Source, HEADER, bytes);
        self.row('G', &[ring.at, ring.n, bit as u32, HEADER, 8]);
    }

    pub fn true_header(&mut self, ring: Ring, bit: u64, track: u8, sector: u8) {
        let (id1, id2) = (self.choose.byte(), self.choose.byte());
        self.header(ring, bit, &[8, sector ^ track ^ id2 ^ id1, sector, track, id2, id1, 15, 15]);
    }

    // A new payload for the block of the source; `end` are the two bytes behind its check byte.
    pub fn new_block(&mut self, marker: u8, end: [u8; 2]) {
        self.put(Buffer::Source, BLOCK, &[marker]);
        self.fill(Buffer::Source, BLOCK + 1, 256);
        self.put(Buffer::Source, BLOCK + 258, &end);
        self.row('Q', &[BLOCK]);
    }

    pub fn spoil_block(&mut self) {
        let at = BLOCK + 1 + self.choose.below(257) as u32;
        let byte = self.choose.byte();
        self.put(Buffer::Source, at, &[byte]);
    }

    // Its check byte becomes another.
    pub fn change_block_sum(&mut self) {
        self.put(Buffer::Source, BLOCK + 1, &[0]);
        self.row('Q', &[BLOCK]);
        self.put(Buffer::Source, BLOCK + 1, &[1]);
    }

    pub fn block(&mut self, ring: Ring, bit: u64) {
        self.row('G', &[ring.at, ring.n, bit as u32, BLOCK, 260]);
    }

    // A sector of the current block with syncs of a given number of ones; the bit behind it.
    pub fn sector(&mut self, ring: Ring, bit: u64, track: u8, sector: u8, ones: u64, gap: u64) -> u64 {
        self.ones(ring, bit, ones);
        self.true_header(ring, bit + ones, track, sector);
        self.ones(ring, bit + ones + 80 + gap, ones);
        let place = bit + 2 * ones + 80 + gap;
        self.block(ring, place);
        place + 2600
    }

    pub fn codes(&mut self, codes: &[u8]) {
        self.put(Buffer::Source, CODES as u32, codes);
    }

    // A track built of the source's first bytes, with `codes` error codes, with or without a line.
    pub fn track(&mut self, letter: char, at: u32, track: u8, codes: u32) -> Ring {
        let room = gcr::capacity(track) as u32;
        let bytes = 256 * u32::from(gcr::sectors_per_track(track));
        let ids = u32::from(self.choose.byte()) << 8 | u32::from(self.choose.byte());
        self.row(letter, &[at, room, u32::from(track) << 16 | ids, 0, bytes, codes]);
        Ring::new(at, room)
    }

    // The same with new payloads.
    pub fn new_track(&mut self, at: u32, track: u8, codes: u32) -> Ring {
        self.fill(Buffer::Source, 0, 21 * 256);
        self.track('T', at, track, codes)
    }

    // Some codes of docs/RULES.md and some others, each sector its own, `often` in half of them.
    pub fn random_codes(&mut self, often: u8) {
        let mut codes = [0u8; 24];
        for code in &mut codes {
            let other = self.choose.below(16) as u8;
            *code = if self.choose.below(2) == 0 { often } else { other };
        }
        self.codes(&codes);
    }

    pub fn scan(&mut self, ring: Ring, track: u8, start: u64) {
        self.row('s', &[ring.at, ring.n, u32::from(track), (start >> 32) as u32, start as u32, 195]);
    }

    pub fn read(&mut self, ring: Ring, track: u8, start: u64) {
        self.row('r', &[ring.at, ring.n, u32::from(track), (start >> 32) as u32, start as u32]);
    }

    pub fn scan_and_read(&mut self, ring: Ring, track: u8) {
        let start = self.choose.below(ring.bits() + 8);
        self.scan(ring, track, start);
        let start = self.choose.next();
        self.read(ring, track, start);
    }
}

pub fn of_kind(kind: &str, seed: u64, scale: u64) -> Vec<u8> {
    let mut c = Cases { rows: String::new(), choose: Chooser::new(seed), scale };
    // Stored kinds follow one another: each begins with buffers of zeros.
    c.store(Buffer::Target, 0, TARGET as u32, 0);
    c.store(Buffer::Source, 0, SOURCE as u32, 0);
    match kind {
        "block" => crate::cases_block::all(&mut c),
        "build" => crate::cases_build::all(&mut c),
        "scan" => crate::cases_scan::all(&mut c),
        "sector" => crate::cases_sector::all(&mut c),
        "orbit" => crate::cases_nib::orbits(&mut c),
        "nib" => crate::cases_nib::files(&mut c),
        "clear_d64" => crate::cases_d64::all(&mut c),
        "clear_g64" => crate::cases_g64::all(&mut c),
        "clear_nib" => crate::cases_clear_nib::all(&mut c),
        _ => panic!("no such kind: {kind}"),
    }
    c.rows.into_bytes()
}
