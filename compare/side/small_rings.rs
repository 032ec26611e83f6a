// Short rings: every ring of one and of two bytes; noise; runs of ones; symbols of the code; a record's pieces written
// over each other on rings that are too short for them.
use crate::asked::{SCAN_BYTES, SCAN_NUMBERS};
use crate::craft::{any_start, any_track, background, block_of, bytes, header, payload, set, true_header};
use crate::draw::Chooser;
use crate::fdd1541::gcr;
use crate::judge::Judge;

// One of the four functions on a sector, which the ring may have.
pub fn ask_sector(judge: &mut Judge, c: &mut Chooser, ring: &[u8], track: u8, known: &[u8]) {
    let sector = if known.is_empty() || c.below(8) == 0 {
        c.one_of(&[0, 1, 2, 16, 17, 18, 19, 20, 21, 22, 255])
    } else {
        c.one_of(known)
    };
    let unique = c.below(2) == 0;
    if c.below(2) == 0 {
        judge.sector(ring, track, sector, unique);
    } else {
        let data = payload(c);
        judge.replace(&mut ring.to_vec(), track, sector, &data, unique);
    }
}

// A scan and a read, with spare room or without, and one question about a sector.
pub fn ask(judge: &mut Judge, c: &mut Chooser, ring: &[u8], track: u8) {
    let start = any_start(c, ring);
    let spare = c.below(3) as usize;
    let records = judge.scan(ring, track, start, SCAN_NUMBERS + spare, SCAN_BYTES + 7 * spare);
    let known: Vec<u8> = records.iter().map(|r| r.sector).collect();
    let n = usize::from(gcr::sectors_per_track(track));
    let start = any_start(c, ring);
    judge.read(ring, track, start, 256 * n + 5 * spare, n + spare);
    ask_sector(judge, c, ring, track, &known);
}

fn every_ring(judge: &mut Judge, c: &mut Chooser) {
    judge.about = "every ring of one byte, every track".to_string();
    for track in 0..=255 {
        for byte in 0..=255 {
            judge.scan(&[byte], track, c.below(9), SCAN_NUMBERS, SCAN_BYTES);
        }
    }
    for _ in 0..2 {
        let track = any_track(c);
        judge.about = format!("every ring of two bytes, track {track}");
        for pair in 0..=65_535u16 {
            judge.scan(&pair.to_be_bytes(), track, c.below(17), SCAN_NUMBERS, SCAN_BYTES);
        }
    }
}

// Random bytes with more ones, or with fewer.
fn noise(c: &mut Chooser) -> Vec<u8> {
    let n = if c.below(4) == 0 { c.within(1, 24) } else { c.within(25, 400) } as usize;
    let mut ring = bytes(c, n);
    let more = c.below(5);
    for _ in 0..more {
        for (byte, other) in ring.iter_mut().zip(bytes(c, n)) {
            *byte = if more == 4 { *byte & other } else { *byte | other };
        }
    }
    ring
}

// Runs of ones of every length about ten, with zeros between.
fn runs(c: &mut Chooser) -> Vec<u8> {
    let mut ring = vec![0; c.within(2, 300) as usize];
    let (mut bit, bits) = (c.below(9), 8 * ring.len() as u64);
    while bit < bits {
        let ones = c.within(1, 20);
        set(&mut ring, bit, ones, 1);
        bit += ones + c.within(1, 3);
    }
    ring
}

// Syncs, and behind each some groups of the code, true headers among them.
fn symbols(c: &mut Chooser, track: u8) -> Vec<u8> {
    let n = c.within(12, 300) as usize;
    let mut ring = background(c, n);
    let mut bit = c.below(8 * n as u64);
    for _ in 0..c.within(1, 12) {
        let ones = c.within(8, 14);
        set(&mut ring, bit, ones, 1);
        bit += ones;
        match c.below(3) {
            0 => {
                let sector = c.below(23) as u8;
                true_header(c, &mut ring, bit, track, sector);
            }
            1 => {
                let mut eight: [u8; 8] = bytes(c, 8).try_into().expect("8 bytes");
                (eight[0], eight[3]) = (c.one_of(&[8, 8, 7, 0]), track);
                header(&mut ring, bit, &eight);
            }
            _ => {
                let many = 4 * c.within(1, 12) as usize;
                let groups = bytes(c, many);
                gcr::write_code(&mut ring, bit as usize, &groups);
            }
        }
        bit += c.one_of(&[40, 79, 80, 81, 90, 120]);
    }
    ring
}

// A header and a block at any bits of a ring that may be shorter than both: the last write stands.
fn overlapping(c: &mut Chooser, track: u8) -> Vec<u8> {
    let n = if c.below(2) == 0 { c.within(20, 336) } else { c.within(326, 350) } as usize;
    let mut ring = vec![c.one_of(&[0xFF, 0xFF, 0x55, 0]); n];
    let end = c.one_of(&[[0, 0], [0, 5], [0x55, 0x55], [0xFF, 0xFF]]);
    let block = block_of(7, &payload(c), end);
    let place = c.below(8 * n as u64);
    let back = c.one_of(&[89, 90, 90, 91, 92, 96, 100]);
    gcr::write_code(&mut ring, place as usize, &block);
    let bits = 8 * n as u64;
    let sector = c.below(22) as u8;
    true_header(c, &mut ring, place + bits.saturating_sub(back), track, sector);
    if c.below(2) == 0 {
        set(&mut ring, place + bits.saturating_sub(10), 10, 1);
    }
    ring
}

pub fn all(judge: &mut Judge, c: &mut Chooser, size: u64) {
    every_ring(judge, c);
    for (name, many) in [("noise", 16_000), ("runs", 8_000), ("symbols", 12_000), ("pieces overlapping", 8_000)] {
        judge.about = format!("short rings, {name}");
        for _ in 0..many * size {
            let track = any_track(c);
            let ring = match name {
                "noise" => noise(c),
                "runs" => runs(c),
                "symbols" => symbols(c, track),
                _ => overlapping(c, track),
            };
            ask(judge, c, &ring, track);
        }
    }
}
