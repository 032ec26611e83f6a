// Rings whose sectors are missing for every reason: tracks built with every code, whole and cut to a few slots, as they are
// and damaged; headers and blocks of few sectors, true and false, in any order; every ring of two bytes.
use crate::craft::{any_start, any_track, background, block_of, bytes, flipped, header, payload, rotated, set};
use crate::draw::Chooser;
use crate::fdd1541::gcr;
use crate::judge::Judge;

fn read(judge: &mut Judge, c: &mut Chooser, ring: &[u8], track: u8) {
    let n = usize::from(gcr::sectors_per_track(track));
    let start = any_start(c, ring);
    judge.read(ring, track, start, 256 * n, n);
}

fn any_code(c: &mut Chooser) -> u8 {
    match c.below(8) {
        0 => c.byte(),
        _ => c.one_of(&[1, 1, 2, 3, 4, 5, 9, 11]),
    }
}

fn coded(c: &mut Chooser, track: u8, codes: &[u8]) -> Vec<u8> {
    let sectors: Vec<[u8; 256]> = codes.iter().map(|_| payload(c)).collect();
    gcr::build_track_with_errors(track, &sectors, codes, c.byte(), c.byte())
}

fn any_codes(c: &mut Chooser, track: u8) -> Vec<u8> {
    let codes: Vec<u8> = (0..gcr::sectors_per_track(track)).map(|_| any_code(c)).collect();
    coded(c, track, &codes)
}

// A stretch of zeros, or some bits flipped, or both.
fn wounded(c: &mut Chooser, ring: &mut [u8]) {
    let bits = 8 * ring.len() as u64;
    let way = c.below(3);
    if way != 0 {
        let most = c.one_of(&[1, 10, 100, 3000, bits]);
        set(ring, c.below(bits), c.within(1, most), 0);
    }
    if way != 1 {
        flipped(c, ring);
    }
}

// The first slots of some tracks, one behind the other: copies of one sector, each of its own code. In every zone the
// first four slots have the length that the capacity gives, and one byte more.
fn slots(c: &mut Chooser, track: u8) -> Vec<u8> {
    let slot = gcr::capacity(track) / usize::from(gcr::sectors_per_track(track)) + 1;
    let long = slot * c.within(1, 4) as usize;
    let mut ring = Vec::new();
    for _ in 0..c.within(1, 3) {
        let codes = [any_code(c), any_code(c), any_code(c), any_code(c)];
        ring.extend_from_slice(&coded(c, track, &codes)[..long]);
    }
    let bits = 8 * ring.len() as u64;
    if c.below(4) == 0 {
        rotated(&ring, c.below(bits))
    } else {
        ring
    }
}

// Headers of few sectors, each with a block behind it or none, all true or false in some way.
fn headers(c: &mut Chooser, track: u8) -> Vec<u8> {
    let n = c.within(30, 1500) as usize;
    let mut ring = background(c, n);
    let mut bit = c.below(8 * n as u64);
    let end = bit + 8 * n as u64;
    while bit < end {
        bit = one_header(c, &mut ring, bit, track);
    }
    ring
}

fn one_header(c: &mut Chooser, ring: &mut [u8], bit: u64, track: u8) -> u64 {
    let sector = c.one_of(&[0, 0, 1, 1, 2, 16, 17, 21, 200]);
    let mut eight: [u8; 8] = bytes(c, 8).try_into().expect("8 bytes");
    (eight[0], eight[2], eight[3]) = (8, sector, track);
    match c.below(16) {
        0 => eight[0] = c.byte(),
        1 => eight[3] = c.byte(),
        _ => {}
    }
    eight[1] = eight[2] ^ eight[3] ^ eight[4] ^ eight[5];
    if c.below(3) == 0 {
        eight[1] ^= c.byte();
    }
    let place = bit + c.one_of(&[9, 10, 10, 11, 40]);
    set(ring, bit, place - bit, 1);
    header(ring, place, &eight);
    if c.below(10) == 0 {
        set(ring, place + c.below(80), c.within(1, 9), 0);
    }
    let behind = place + 80 + c.one_of(&[0, 1, 72, 72, 72, 700, 757, 758]);
    if c.below(2) == 0 {
        return behind;
    }
    one_block(c, ring, behind)
}

fn one_block(c: &mut Chooser, ring: &mut [u8], bit: u64) -> u64 {
    let marker = c.one_of(&[7, 7, 7, 7, 7, 8, 0]);
    let mut block = block_of(marker, &payload(c), [c.byte(), c.byte()]);
    if c.below(2) == 0 {
        block[c.within(1, 257) as usize] ^= c.byte();
    }
    let place = bit + c.one_of(&[9, 10, 10, 11, 40]);
    set(ring, bit, place - bit, 1);
    gcr::write_code(ring, place as usize, &block);
    if c.below(5) == 0 {
        set(ring, place + c.below(2600), c.within(1, 9), 0);
    }
    place + 2600
}

// Each code for all sectors of a track, and for all but one.
fn every_code(judge: &mut Judge, c: &mut Chooser) {
    judge.about = "statuses, every code".to_string();
    for code in 0..=255 {
        let track = any_track(c);
        let mut codes = vec![code; usize::from(gcr::sectors_per_track(track))];
        let ring = coded(c, track, &codes);
        read(judge, c, &ring, track);
        codes[c.below(17) as usize] = 1;
        let ring = coded(c, track, &codes);
        read(judge, c, &ring, track);
    }
}

fn every_pair(judge: &mut Judge, c: &mut Chooser) {
    let track = any_track(c);
    judge.about = format!("statuses, every ring of two bytes, track {track}");
    for pair in 0..=65_535u16 {
        read(judge, c, &pair.to_be_bytes(), track);
    }
}

pub fn all(judge: &mut Judge, c: &mut Chooser, size: u64) {
    every_code(judge, c);
    every_pair(judge, c);
    let kinds: [(&str, u64, fn(&mut Chooser, u8) -> Vec<u8>); 3] =
        [("whole tracks", 800, any_codes), ("slots", 6_000, slots), ("headers", 8_000, headers)];
    for (name, many, make) in kinds {
        for _ in 0..many * size {
            let track = any_track(c);
            let mut ring = make(c, track);
            judge.about = format!("statuses, {name}");
            read(judge, c, &ring, track);
            wounded(c, &mut ring);
            judge.about = format!("statuses, {name}, damaged");
            read(judge, c, &ring, track);
        }
    }
}
