// The slips that docs/RULES.md names, each under a heading of its own: a scan that falls for one prints other lines.
use crate::cases::{Buffer, Cases, Ring, ZONE_TRACKS};

// A ring of gap bytes; their odd bits are ones, so that a run of ones that begins at an odd bit has no one before it.
pub fn gaps(c: &mut Cases, bytes: u32) -> Ring {
    c.store(Buffer::Target, 0, bytes, 0x55);
    Ring::new(0, bytes)
}

// A ring that begins with ones and then a header is recorded twice with 10 to 15 ones, once with 16.
fn ones_at_the_join(c: &mut Cases) {
    c.heading("slip: 10 to 15 ones recorded twice, with 16 not");
    for ones in 8..=18 {
        let ring = gaps(c, 400);
        c.zeros(ring, ring.bits() - 1, 1);
        c.new_block(7, [0, 0]);
        c.sector(ring, 0, 18, 1, ones, 30);
        c.scan(ring, 18, 0);
        c.scan(ring, 18, 1);
        c.scan(ring, 18, ring.bits() - 1);
        c.read(ring, 18, 0);
    }
    c.heading("recorded once where the scan is at its end");
    for ones in 9..=17 {
        // the block ends one bit before the ring's end, at it, one bit behind it
        for end in [2759, 2760, 2761] {
            let ring = gaps(c, 345);
            c.zeros(ring, ring.bits() - 1, 1);
            c.new_block(7, [0, 0]);
            c.sector(ring, 0, 18, 1, ones, end - 2680 - 2 * ones);
            c.scan(ring, 18, 0);
        }
    }
}

// A header behind a run of ones, scanned from bits inside the run: with fewer than 10 ones left it is found a turn later.
fn ones_before_the_start(c: &mut Cases) {
    c.heading("slip: ones count from where the search starts");
    for run in [10, 11, 16, 24, 40] {
        let ring = gaps(c, 400);
        c.new_block(7, [0, 0]);
        c.sector(ring, 101, 25, 3, run, 31);
        for left in 0..=run.min(18) {
            c.scan(ring, 25, 101 + run - left);
        }
        c.read(ring, 25, 101 + run - 9);
    }
    c.heading("the header's last one is not counted for the data");
    for ones in 8..=11 {
        let ring = gaps(c, 400);
        c.new_block(7, [0, 0]);
        c.ones(ring, 101, 20);
        c.true_header(ring, 121, 25, 3);
        c.ones(ring, 201, ones);
        c.block(ring, 201 + ones);
        c.scan(ring, 25, 0);
    }
    c.heading("nor the data's last one for the next header");
    for ones in 8..=11 {
        let ring = gaps(c, 800);
        c.new_block(7, [15, 15]);
        let bit = c.sector(ring, 101, 25, 3, 20, 31);
        c.ones(ring, bit, ones);
        c.true_header(ring, bit + ones, 25, 4);
        c.ones(ring, bit + ones + 120, 20);
        c.block(ring, bit + ones + 140);
        c.scan(ring, 25, 0);
        c.read(ring, 25, 0);
    }
}

// Four sectors, each of its own ids; `sum` goes into each header's checksum.
fn sectors_of_ids(c: &mut Cases, track: u8, ids: [(u8, u8); 4], sum: u8) -> Ring {
    let ring = gaps(c, 1440);
    let mut bit = 41;
    for (sector, (id1, id2)) in (0..).zip(ids) {
        c.new_block(7, [0, 0]);
        c.ones(ring, bit, 40);
        c.header(ring, bit + 40, &[8, sector ^ track ^ id2 ^ id1 ^ sum, sector, track, id2, id1, 15, 15]);
        c.ones(ring, bit + 192, 40);
        c.block(ring, bit + 232);
        bit += 2880;
    }
    ring
}

// A header counts by its checksum alone, whatever ids it and the others have.
fn ids(c: &mut Cases) {
    c.heading("slip: ids are not compared");
    for track in ZONE_TRACKS {
        let one = (0x41, 0x42);
        for ids in [[one; 4], [one, one, one, (0x42, 0x41)], [one, (0, 0), (0xFF, 0xFF), (0x00, 0xFF)]] {
            let ring = sectors_of_ids(c, track, ids, 0);
            c.scan(ring, track, 0);
            c.read(ring, track, 0);
        }
        let ring = sectors_of_ids(c, track, [one; 4], 1);
        c.scan(ring, track, 0);
        // code 0B builds sectors of other ids
        for codes in [[11; 24], [1, 11, 1, 1, 11, 11, 1, 11, 1, 1, 1, 11, 11, 11, 1, 1, 11, 1, 11, 1, 11, 1, 11, 1]] {
            c.codes(&codes);
            let ring = c.new_track(0, track, 21);
            c.scan_and_read(ring, track);
        }
    }
}

pub fn all(c: &mut Cases) {
    ones_at_the_join(c);
    ones_before_the_start(c);
    ids(c);
}
