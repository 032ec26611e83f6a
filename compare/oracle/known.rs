// Rings and codes whose first bad symbol was worked out by hand: the model is held to them, and then the library.
use crate::fdd1541::gcr;
use crate::symbols::{self, DATA, HEADER};

const TRACK: u8 = 1;
const NONE: [u64; 3] = [0, 0, 0];

pub struct Known {
    pub about: String,
    pub ring: Vec<u8>,
    pub start: u64,
    // block, symbol, ring bit
    pub bad: [u64; 3],
}

pub const KNOWN_TRACK: u8 = TRACK;

fn known(about: &str, ring: &[u8], start: u64, bad: [u64; 3]) -> Known {
    Known { about: format!("{about}, from bit {start}"), ring: ring.to_vec(), start, bad }
}

fn bits_set(ring: &mut [u8], from: usize, n: usize, value: u8) {
    for bit in from..from + n {
        gcr::set_bit(ring, bit, value);
    }
}

fn zeroed(ring: &[u8], from: usize, n: usize) -> Vec<u8> {
    let mut ring = ring.to_vec();
    bits_set(&mut ring, from, n, 0);
    ring
}

// Track 1, zero payloads, ids 0. Slot 0: header at 40, data at 232; slot 1: header at 2976, data at 3168.
fn on_a_track(list: &mut Vec<Known>) {
    let plain = gcr::build_track_with_errors(TRACK, &[], &[], 0, 0);
    let bits = 8 * plain.len() as u64;
    for start in [0, 39, 60, 2000, bits - 1, bits, u64::MAX] {
        list.push(known("undamaged", &plain, start, NONE));
    }
    list.push(known("bits 100 to 104", &zeroed(&plain, 100, 5), 0, [HEADER, 12, 100]));
    list.push(known("bits 98 to 102", &zeroed(&plain, 98, 5), 0, [HEADER, 11, 95]));
    let data = zeroed(&plain, 267, 5);
    list.push(known("bits 267 to 271", &data, 0, [DATA, 7, 267]));
    list.push(known("bits 267 to 271", &data, 60, [HEADER, 7, 267]));
    // the first that is met, not the lowest
    let both = zeroed(&zeroed(&plain, 267, 5), 3168 + 5 * 519, 5);
    list.push(known("data of sectors 0 and 1", &both, 0, [DATA, 7, 267]));
    list.push(known("data of sectors 0 and 1", &both, 2900, [DATA, 519, 3168 + 5 * 519]));
    // behind the header's 16 symbols and behind the data block's 520 none is looked at
    let gaps = zeroed(&zeroed(&plain, 120, 5), 232 + 2600, 5);
    list.push(known("behind header and data", &gaps, 0, NONE));
}

// Codes 2, 3, 4, 5, 9 and 0B have legal symbols.
fn every_code(list: &mut Vec<Known>) {
    let codes = [2, 3, 4, 5, 9, 11, 1, 0];
    let ring = gcr::build_track_with_errors(TRACK, &[], &codes, 0x41, 0x30);
    for start in [0, 300, 12_345] {
        list.push(known("codes", &ring, start, NONE));
    }
}

// Sync, header 0, gap, sync, header 1 whose symbol 12 is bad, gap: nothing behind the marker 08 is looked at.
fn header_for_data(list: &mut Vec<Known>) {
    let mut ring = vec![0x55; 60];
    for (sector, bit) in [(0u8, 40), (1, 232)] {
        bits_set(&mut ring, bit - 40, 40, 1);
        gcr::write_code(&mut ring, bit, &[8, sector ^ TRACK, sector, TRACK, 0, 0, 15, 15]);
    }
    bits_set(&mut ring, 232 + 60, 5, 0);
    list.push(known("a header for data", &ring, 0, NONE));
    list.push(known("a header for data", &ring, 130, [HEADER, 12, 292]));
    // with a bad symbol in the first group it is no marker, and a data block
    bits_set(&mut ring, 232 + 35, 5, 0);
    list.push(known("a bad first group for data", &ring, 0, [DATA, 7, 267]));
}

// A block with another marker: all its symbols are looked at first. The ring begins inside it, at its symbol 300.
fn another_marker(list: &mut Vec<Known>) {
    let mut ring = vec![0x55; 360];
    let (bits, turn) = (8 * 360, 232 + 5 * 300 + 2);
    bits_set(&mut ring, bits - turn, 40, 1);
    gcr::write_code(&mut ring, bits - turn + 40, &[8, TRACK, 0, TRACK, 0, 0, 15, 15]);
    bits_set(&mut ring, bits - turn + 192, 40, 1);
    gcr::write_code(&mut ring, bits - turn + 232, &[0; 260]);
    let from = (bits - turn) as u64;
    list.push(known("another marker", &ring, from, NONE));
    bits_set(&mut ring, bits - 2, 5, 0);
    list.push(known("another marker, bad at the join", &ring, from, [DATA, 300, (bits - 2) as u64]));
    gcr::write_code(&mut ring, bits - turn + 232 + 5 * 296, &[0; 4]);
    bits_set(&mut ring, bits + 18, 5, 0);
    list.push(known("another marker, bad behind the join", &ring, from, [DATA, 304, 18]));
}

fn short_rings(list: &mut Vec<Known>) {
    list.push(known("FF FE", &[0xFF, 0xFE], 0, [HEADER, 1, 4]));
    list.push(known("FF FE", &[0xFF, 0xFE], 1, [HEADER, 1, 4]));
    for byte in [0x00, 0x55, 0xFF] {
        list.push(known("no sync end", &[byte], 0, NONE));
    }
}

pub fn rings() -> Vec<Known> {
    let mut list = Vec::new();
    on_a_track(&mut list);
    every_code(&mut list);
    header_for_data(&mut list);
    another_marker(&mut list);
    short_rings(&mut list);
    list
}

// One line for each, and what the model says where it is not that.
pub fn lines() -> Vec<u8> {
    let mut out = String::new();
    for k in rings() {
        let records = gcr::records(&k.ring, TRACK, k.start);
        let bad = symbols::of_scan(&k.ring, TRACK, k.start, &records);
        let verdict = if bad == k.bad { String::from("as known") } else { format!("model {bad:?}") };
        out.push_str(&format!("{}: {:?}, {verdict}\n", k.about, k.bad));
    }
    out.into_bytes()
}
