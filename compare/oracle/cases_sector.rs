// One sector read and replaced by the unique and by the consistent rule.
use crate::cases::{Buffer, Cases, Ring, ZONE_TRACKS};
use crate::fdd1541::gcr;

// New data stands in the source behind the payloads.
const NEW: u32 = 0x8000;

fn ask(c: &mut Cases, ring: Ring, track: u8, sector: u8) {
    for letter in ['u', 'c'] {
        c.row(letter, &[ring.at, ring.n, u32::from(track), u32::from(sector)]);
    }
}

fn replace(c: &mut Cases, letter: char, ring: Ring, track: u8, sector: u8) {
    c.fill(Buffer::Source, NEW, 256);
    c.row(letter, &[ring.at, ring.n, u32::from(track), u32::from(sector), NEW]);
}

// Both rules, on the ring as it is and as they leave it.
fn both(c: &mut Cases, ring: Ring, track: u8, sector: u8) {
    ask(c, ring, track, sector);
    replace(c, 'U', ring, track, sector);
    ask(c, ring, track, sector);
    replace(c, 'K', ring, track, sector);
    ask(c, ring, track, sector);
}

fn one_copy(c: &mut Cases) {
    c.heading("built tracks, one copy");
    for track in ZONE_TRACKS {
        let ring = c.new_track(0, track, 0);
        let n = gcr::sectors_per_track(track);
        for sector in [0, 1, n / 2, n - 1, n, 255] {
            both(c, ring, track, sector);
        }
        ask(c, ring, track + 1, 0);
    }
}

fn damaged(c: &mut Cases) {
    c.heading("built tracks, damaged");
    for _ in 0..30 * c.scale {
        let track = c.choose.one_of(&ZONE_TRACKS);
        let often = c.choose.below(12) as u8;
        c.random_codes(often);
        let ring = c.new_track(0, track, 21);
        let n = c.choose.within(1, 40);
        c.flip(ring, n);
        let sector = c.choose.below(17) as u8;
        both(c, ring, track, sector);
    }
}

// A capture of 8,192 bytes: a track and the beginning of its next turn, equal or of other payloads.
fn captures(c: &mut Cases, other: bool) {
    for k in 0..12 * c.scale {
        let track = ZONE_TRACKS[k as usize % 4];
        let window = Ring::new(0, 8192);
        let ring = c.new_track(0, track, 0);
        let mut from = 0;
        if other {
            from = 0x4000;
            c.new_track(from, track, 0);
        }
        c.copy(ring.n, 8192 - ring.n, from);
        for sector in 0..3 {
            both(c, window, track, sector);
        }
    }
}

// The same sector several times on a ring, equal or not, with the ring's end anywhere.
fn copies(c: &mut Cases) {
    c.heading("several copies, equal and differing");
    for _ in 0..60 * c.scale {
        let many = c.choose.within(1, 5);
        let slack = c.choose.below(60) as u32;
        let ring = Ring::new(7, 360 * many as u32 + slack);
        let differ = c.choose.below(2) == 0;
        c.store(Buffer::Target, ring.at, ring.n, 0x55);
        c.new_block(7, [0, 0]);
        let mut bit = c.choose.below(ring.bits());
        for _ in 0..many {
            if differ && c.choose.below(3) == 0 {
                c.new_block(7, [0, 0]);
            }
            let sector = c.choose.one_of(&[4, 4, 4, 5]);
            bit = c.sector(ring, bit, 20, sector, 12, 60) + 20;
        }
        both(c, ring, 20, 4);
    }
}

// Recorded twice, a sector is refused by the unique rule, and rewritten by the consistent one.
fn recorded_twice(c: &mut Cases) {
    c.heading("slip: 10 to 15 ones at the join refuse 12, 16 not");
    for ones in 8..=18 {
        let ring = Ring::new(0, 400);
        c.store(Buffer::Target, 0, 400, 0x55);
        c.zeros(ring, ring.bits() - 1, 1);
        c.new_block(7, [0, 0]);
        c.sector(ring, 0, 18, 1, ones, 30);
        both(c, ring, 18, 1);
    }
}

// In 337 bytes a record just fits if the block ends with four ones that its header's sync counts with; replacing
// the block takes them away.
fn smallest(c: &mut Cases) {
    c.heading("rings near and below a record's length");
    for n in 330..=340 {
        for end in [[0, 0], [0, 5], [0x55, 0x55]] {
            let ring = Ring::new(1, n);
            c.store(Buffer::Target, ring.at, ring.n, 0xFF);
            c.new_block(7, end);
            c.block(ring, 0);
            let gap = c.choose.one_of(&[10, 11]);
            let place = ring.bits().saturating_sub(80 + gap);
            c.true_header(ring, place, 35, 9);
            both(c, ring, 35, 9);
        }
    }
    for n in [1, 2, 10, 20, 100, 324, 325, 326] {
        let ring = Ring::new(1, n);
        c.store(Buffer::Target, ring.at, ring.n, 0xFF);
        c.true_header(ring, 0, 35, 9);
        both(c, ring, 35, 9);
    }
}

fn refusals(c: &mut Cases) {
    c.heading("refusals");
    for n in [0, 65_535, 65_536] {
        both(c, Ring::new(0, n), 18, 1);
    }
}

pub fn all(c: &mut Cases) {
    one_copy(c);
    damaged(c);
    c.heading("captures, equal copies");
    captures(c, false);
    c.heading("captures, differing copies");
    captures(c, true);
    copies(c);
    recorded_twice(c);
    smallest(c);
    refusals(c);
}
