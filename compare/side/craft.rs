// Rings made by hand: syncs, headers and blocks written at any bit; and what damage does to a ring.
use crate::draw::Chooser;
use crate::fdd1541::gcr;

pub const ZONE_TRACKS: [u8; 4] = [1, 18, 25, 35];

pub fn bytes(c: &mut Chooser, n: usize) -> Vec<u8> {
    let mut made = Vec::with_capacity(n + 8);
    while made.len() < n {
        made.extend_from_slice(&(c.next() >> 3).to_le_bytes()[..7]);
    }
    made.truncate(n);
    made
}

pub fn payload(c: &mut Chooser) -> [u8; 256] {
    match c.below(8) {
        0 => [c.byte(); 256],
        _ => bytes(c, 256).try_into().expect("256 bytes"),
    }
}

// A track number: of each zone, at a zone's ends, or any byte.
pub fn any_track(c: &mut Chooser) -> u8 {
    match c.below(4) {
        0 => c.one_of(&ZONE_TRACKS),
        1 => c.one_of(&[0, 17, 18, 24, 25, 30, 31, 35, 36, 42, 43, 255]),
        2 => c.within(1, 35) as u8,
        _ => c.byte(),
    }
}

// A start bit: within the ring, at its ends, or any number.
pub fn any_start(c: &mut Chooser, ring: &[u8]) -> u64 {
    let bits = 8 * ring.len() as u64;
    match c.below(6) {
        0 => 0,
        1 => c.one_of(&[1, bits.wrapping_sub(1), bits, bits + 1, 1 << 63, u64::MAX, u64::MAX - 7]),
        2 => c.next(),
        _ => c.below(bits + 1),
    }
}

pub fn set(ring: &mut [u8], bit: u64, n: u64, value: u8) {
    for i in 0..n {
        gcr::set_bit(ring, (bit + i) as usize, value);
    }
}

pub fn header(ring: &mut [u8], bit: u64, bytes: &[u8; 8]) {
    gcr::write_code(ring, bit as usize, bytes);
}

pub fn true_header(c: &mut Chooser, ring: &mut [u8], bit: u64, track: u8, sector: u8) {
    let (id1, id2) = (c.byte(), c.byte());
    header(ring, bit, &[8, sector ^ track ^ id2 ^ id1, sector, track, id2, id1, 15, 15]);
}

pub fn block_of(marker: u8, payload: &[u8; 256], end: [u8; 2]) -> [u8; 260] {
    let mut block = [0; 260];
    block[0] = marker;
    block[1..257].copy_from_slice(payload);
    block[257] = payload.iter().fold(0, |sum, byte| sum ^ byte);
    block[258..].copy_from_slice(&end);
    block
}

// Where a record begins, and how it is spaced: ones of each sync, bits between header and data sync.
#[derive(Clone, Copy)]
pub struct Spacing {
    pub bit: u64,
    pub ones: u64,
    pub gap: u64,
}

// A whole sector; the bit behind it.
pub fn sector(c: &mut Chooser, ring: &mut [u8], at: Spacing, track: u8, sector: u8, block: &[u8; 260]) -> u64 {
    let Spacing { bit, ones, gap } = at;
    set(ring, bit, ones, 1);
    true_header(c, ring, bit + ones, track, sector);
    set(ring, bit + ones + 80 + gap, ones, 1);
    let place = bit + 2 * ones + 80 + gap;
    gcr::write_code(ring, place as usize, block);
    place + 2600
}

pub fn any_spacing(c: &mut Chooser, bit: u64) -> Spacing {
    let ones = c.one_of(&[9, 10, 10, 11, 12, 16, 40]);
    let gap = c.one_of(&[0, 1, 7, 40, 72, 700, 758]);
    Spacing { bit, ones, gap }
}

// What stands on a ring before anything is written: gap bytes, zeros, ones, noise.
pub fn background(c: &mut Chooser, n: usize) -> Vec<u8> {
    match c.below(5) {
        0 | 1 => vec![0x55; n],
        2 => vec![0; n],
        3 => vec![0xFF; n],
        _ => bytes(c, n),
    }
}

// A track built of random payloads, plain or with some codes.
pub fn built(c: &mut Chooser, track: u8) -> Vec<u8> {
    let sectors: Vec<[u8; 256]> = (0..21).map(|_| payload(c)).collect();
    let codes: Vec<u8> = match c.below(3) {
        0 => (0..21).map(|_| c.one_of(&[1, 1, 2, 3, 4, 5, 9, 11])).collect(),
        _ => Vec::new(),
    };
    gcr::build_track_with_errors(track, &sectors, &codes, c.byte(), c.byte())
}

// The ring that begins at another bit of this ring.
pub fn rotated(ring: &[u8], by: u64) -> Vec<u8> {
    let bits = 8 * ring.len() as u64;
    let mut turned = vec![0; ring.len()];
    for bit in 0..bits {
        let value = gcr::bit(ring, ((bit + by) % bits) as usize);
        gcr::set_bit(&mut turned, bit as usize, value);
    }
    turned
}

pub fn flipped(c: &mut Chooser, ring: &mut [u8]) {
    let most = c.one_of(&[1, 2, 8, 40, 300]);
    for _ in 0..c.within(1, most) {
        let bit = c.below(8 * ring.len() as u64) as usize;
        let value = 1 - gcr::bit(ring, bit);
        gcr::set_bit(ring, bit, value);
    }
}

// One of the ways in which a ring goes wrong.
pub fn damaged(c: &mut Chooser, ring: &mut Vec<u8>) {
    let n = ring.len() as u64;
    let (from, to) = (c.below(n) as usize, c.below(n) as usize);
    let most = (n as usize - from.max(to)).min(800) as u64;
    let long = c.within(1, most) as usize;
    match c.below(7) {
        0 | 1 => flipped(c, ring),
        2 => {
            let stretch = c.one_of(&[8, 80, 800, 8000]);
            let (stretch, value) = (c.within(1, stretch), c.below(2) as u8);
            set(ring, 8 * from as u64 + c.below(8), stretch, value);
        }
        // a piece doubled over another, put in between, or taken out
        3 => ring.copy_within(from..from + long, to),
        4 => {
            let piece = ring[from..from + long].to_vec();
            ring.splice(to..to, piece);
        }
        5 if ring.len() > long => drop(ring.drain(from..from + long)),
        _ => *ring = rotated(ring, c.below(8 * n)),
    }
}
