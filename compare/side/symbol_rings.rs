// Rings for the first bad symbol: those that are known by hand; tracks with one symbol spoilt, anywhere, or several; headers
// and blocks that nothing is wrong with but a symbol, behind each kind of header, also across the ring's join.
use crate::asked::{SCAN_BYTES, SCAN_NUMBERS};
use crate::craft::{any_start, any_track, background, block_of, bytes, header, payload, rotated, set};
use crate::draw::Chooser;
use crate::fdd1541::gcr;
use crate::judge::Judge;
use crate::known;
use crate::symbols;

fn ask(judge: &mut Judge, ring: &[u8], track: u8, start: u64) {
    let n = usize::from(gcr::sectors_per_track(track));
    judge.scan(ring, track, start, SCAN_NUMBERS, SCAN_BYTES);
    judge.read(ring, track, start, 256 * n, n);
}

// The model is held to them first.
fn known_by_hand(judge: &mut Judge) {
    for k in known::rings() {
        let records = gcr::records(&k.ring, known::KNOWN_TRACK, k.start);
        assert_eq!(symbols::of_scan(&k.ring, known::KNOWN_TRACK, k.start, &records), k.bad, "{}", k.about);
        judge.about = format!("known: {}", k.about);
        ask(judge, &k.ring, known::KNOWN_TRACK, k.start);
    }
}

// The symbols outside the table.
const BAD: [u64; 16] = [0, 1, 2, 3, 4, 5, 6, 7, 8, 12, 16, 17, 20, 24, 28, 31];

// One of so many symbols from a place on becomes a bad one, or any.
fn spoilt(c: &mut Chooser, ring: &mut [u8], place: u64, symbols: u64) {
    let symbol = if c.below(8) == 0 { c.below(32) } else { c.one_of(&BAD) };
    let bit = place + 5 * c.below(symbols);
    for i in 0..5 {
        gcr::set_bit(ring, (bit + i) as usize, (symbol >> (4 - i) & 1) as u8);
    }
}

// A built track of any codes, or its first two slots, with one to three symbols of headers and data blocks spoilt.
fn spoilt_track(c: &mut Chooser, track: u8) -> Vec<u8> {
    let sectors: Vec<[u8; 256]> = (0..21).map(|_| payload(c)).collect();
    let codes: Vec<u8> = (0..21).map(|_| c.one_of(&[1, 1, 1, 2, 3, 4, 5, 9, 11])).collect();
    let mut ring = gcr::build_track_with_errors(track, &sectors, &codes, c.byte(), c.byte());
    let slot = 8 * (gcr::capacity(track) / usize::from(gcr::sectors_per_track(track)) + 1) as u64;
    let slots = if c.below(4) > 0 { 2 } else { 4 };
    if slots == 2 {
        ring.truncate(slot as usize / 4);
    }
    for _ in 0..c.within(1, 3) {
        let place = slot * c.below(slots) + c.one_of(&[40, 232, 232]);
        let symbols = c.one_of(&[2, 8, 16, 17, 520, 521]);
        spoilt(c, &mut ring, place, symbols);
    }
    if c.below(3) == 0 {
        let bits = 8 * ring.len() as u64;
        ring = rotated(&ring, c.below(bits));
    }
    ring
}

// A header, true or of another kind, and behind it a block of any marker; in each of them a symbol may be spoilt.
fn spoilt_pair(c: &mut Chooser, track: u8) -> Vec<u8> {
    // a shorter ring's block ends in its own header
    let n = if c.below(6) == 0 { c.within(40, 337) } else { c.within(338, 420) } as usize;
    let mut ring = background(c, n);
    let bit = c.below(8 * n as u64);
    let ones = c.one_of(&[10, 10, 12, 40]);
    let mut eight: [u8; 8] = bytes(c, 8).try_into().expect("8 bytes");
    (eight[0], eight[2], eight[3]) = (c.one_of(&[8, 8, 8, 8, 7]), c.one_of(&[0, 0, 0, 16, 40]), track);
    eight[1] = eight[2] ^ eight[3] ^ eight[4] ^ eight[5] ^ c.one_of(&[0, 0, 0, 0, 1]);
    set(&mut ring, bit, ones, 1);
    header(&mut ring, bit + ones, &eight);
    let data = bit + ones + 80 + c.one_of(&[0, 1, 72]);
    let mut block = block_of(c.one_of(&[7, 7, 8, 0]), &payload(c), [0, 0]);
    block[c.within(1, 257) as usize] ^= c.one_of(&[0, 0, 1]);
    set(&mut ring, data, ones, 1);
    gcr::write_code(&mut ring, (data + ones) as usize, &block);
    for (place, symbols) in [(bit + ones, 17), (data + ones, 9), (data + ones, 521)] {
        if c.below(3) == 0 {
            spoilt(c, &mut ring, place, symbols);
        }
    }
    ring
}

// Every bit of one slot's header, gap and first symbols, forced to zero, on its own.
fn every_bit(judge: &mut Judge, c: &mut Chooser) {
    judge.about = "symbols, one bit zero".to_string();
    let sectors = [payload(c), payload(c)];
    let plain = &gcr::build_track_with_errors(1, &sectors, &[], c.byte(), c.byte())[..734];
    for bit in (0..320).chain(2800..3000) {
        let mut ring = plain.to_vec();
        set(&mut ring, bit, 1, 0);
        ask(judge, &ring, 1, c.one_of(&[0, 60, 2900]));
    }
}

pub fn all(judge: &mut Judge, c: &mut Chooser, size: u64) {
    known_by_hand(judge);
    every_bit(judge, c);
    let kinds: [(&str, u64, fn(&mut Chooser, u8) -> Vec<u8>); 2] =
        [("tracks", 3_000, spoilt_track), ("header and block", 12_000, spoilt_pair)];
    for (name, many, make) in kinds {
        judge.about = format!("symbols, {name}");
        for _ in 0..many * size {
            let track = any_track(c);
            let ring = make(c, track);
            let start = any_start(c, &ring);
            ask(judge, &ring, track, start);
        }
    }
}
