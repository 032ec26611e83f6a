// Scans and reads: built tracks from many bits, with each code, damaged; random rings; pieces put together; the limits.
use crate::cases::{Buffer, Cases, Ring, ZONE_TRACKS};
use crate::cases_slips;
use crate::cases_status;
use crate::cases_symbols;

fn starts(c: &mut Cases) {
    c.heading("built tracks from many bits");
    for track in [1, 18, 25, 31, 0, 255] {
        let ring = c.new_track(0, track, 0);
        let bits = ring.bits();
        for start in [0, 1, 39, 40, 41, 2831, bits - 1, bits, bits + 1, 0xFFFF_FFFF, 1 << 63, u64::MAX] {
            c.scan(ring, track, start);
        }
        c.read(ring, track, u64::MAX);
        for _ in 0..6 * c.scale {
            c.scan_and_read(ring, track);
        }
        c.scan(ring, track.wrapping_add(1), 0);
    }
}

fn codes(c: &mut Cases) {
    c.heading("each code");
    for track in ZONE_TRACKS {
        for code in 0..=16 {
            c.random_codes(code);
            let ring = c.new_track(0, track, 21);
            c.scan_and_read(ring, track);
        }
    }
}

fn stretches(c: &mut Cases) {
    c.heading("a stretch of zeros");
    for k in 0..60 * c.scale {
        let track = c.choose.one_of(&ZONE_TRACKS);
        let ring = c.new_track(0, track, 0);
        let bit = c.choose.below(ring.bits());
        let most = [8, 80, 800, 8000][k as usize % 4];
        let n = c.choose.within(1, most);
        c.zeros(ring, bit, n);
        c.scan_and_read(ring, track);
    }
}

fn changed_bits(c: &mut Cases) {
    c.heading("changed bits");
    for k in 0..60 * c.scale {
        let track = c.choose.one_of(&ZONE_TRACKS);
        let ring = c.new_track(0, track, 0);
        let most = [4, 16, 64, 256][k as usize % 4];
        let n = c.choose.within(1, most);
        c.flip(ring, n);
        c.scan_and_read(ring, track);
    }
}

fn random_rings(c: &mut Cases) {
    c.heading("random rings of 1 to 400 bytes");
    for k in 0..120 * c.scale {
        let n = if k < 48 { k as u32 % 400 + 1 } else { c.choose.within(49, 400) as u32 };
        let ring = Ring::new(3, n);
        let track = c.choose.byte();
        c.fill(Buffer::Target, 3, n);
        for _ in 0..k % 4 {
            c.or_fill(3, n);
        }
        c.scan_and_read(ring, track);
    }
}

// Headers and blocks, true and false, at syncs that are too short or just long enough.
fn pieces(c: &mut Cases) {
    c.heading("pieces put together");
    for _ in 0..48 * c.scale {
        let ring = Ring::new(5, c.choose.within(338, 2400) as u32);
        let track = c.choose.one_of(&ZONE_TRACKS);
        match c.choose.below(3) {
            0 => c.store(Buffer::Target, ring.at, ring.n, 0x55),
            1 => c.store(Buffer::Target, ring.at, ring.n, 0),
            _ => c.fill(Buffer::Target, ring.at, ring.n),
        }
        let mut bit = c.choose.below(ring.bits());
        let end = bit + ring.bits();
        while bit < end {
            bit = piece(c, ring, bit, track);
        }
        c.scan(ring, track, 0);
        c.scan_and_read(ring, track);
    }
}

fn piece(c: &mut Cases, ring: Ring, bit: u64, track: u8) -> u64 {
    let ones = c.choose.one_of(&[9, 10, 10, 11, 12, 40]);
    let gap = c.choose.one_of(&[0, 1, 40, 72, 700]);
    let sector = c.choose.below(24) as u8;
    let marker = c.choose.one_of(&[7, 7, 7, 7, 8, 0, 15]);
    c.new_block(marker, [0, 0]);
    match c.choose.below(8) {
        0 => {
            c.ones(ring, bit, ones);
            c.true_header(ring, bit + ones, track, sector);
            bit + ones + 80 + gap
        }
        1 => {
            c.ones(ring, bit, ones);
            c.block(ring, bit + ones);
            bit + ones + 2600
        }
        2 => {
            c.spoil_block();
            c.sector(ring, bit, track, sector, ones, gap)
        }
        3 => {
            c.ones(ring, bit, ones);
            let other = c.choose.byte();
            c.header(ring, bit + ones, &[8, other, sector, track, 0x41, 0x42, 15, 15]);
            bit + ones + 80
        }
        4 => c.sector(ring, bit, track ^ 1, sector, ones, gap),
        _ => c.sector(ring, bit, track, sector, ones, gap),
    }
}

// Records as close as they come: 10 ones, header, 10 ones, data, twice in 675 bytes, repeated.
fn longest(c: &mut Cases) {
    c.heading("rings of 65,535 bytes");
    let ring = Ring::new(0, 65_535);
    for track in ZONE_TRACKS {
        let pair = Ring::new(0, 675);
        c.new_block(7, [0, 0]);
        let bit = c.sector(pair, 0, track, 3, 10, 0);
        c.sector(pair, bit, track, 16, 10, 0);
        c.copy(675, 65_535 - 675, 0);
        c.scan(ring, track, 0);
        c.scan(ring, track, 524_280 - 2_700);
        c.scan_and_read(ring, track);
        // 194 sectors and 480 zeros: from bit 0 alone the first header is met again at the join
        c.store(Buffer::Target, 65_475, 60, 0);
        c.scan(ring, track, 0);
        c.scan(ring, track, 1);
    }
    for byte in [0x00, 0xFF, 0x55] {
        c.store(Buffer::Target, 0, 65_535, byte);
        c.scan_and_read(ring, 1);
    }
    for period in [1, 2, 3, 37, 256, 4093] {
        c.fill(Buffer::Target, 0, period);
        c.or_fill(0, period);
        c.copy(period, 65_535 - period, 0);
        c.scan_and_read(ring, 31);
    }
}

// The data search covers 768 bits from 80 behind the header's place.
fn far_data(c: &mut Cases) {
    c.heading("how far off the data may be");
    for gap in 750..=770 {
        let ring = Ring::new(0, 500);
        c.store(Buffer::Target, 0, 500, 0x55);
        c.new_block(7, [0, 0]);
        c.sector(ring, 100, 31, 2, 10, gap);
        c.scan(ring, 31, 0);
    }
}

// Marker 08 in place of data sends the scan there; an illegal symbol sooner does not.
fn header_for_data(c: &mut Cases) {
    c.heading("a header in place of data");
    for k in 0..24 * c.scale {
        let ring = Ring::new(0, 800);
        c.store(Buffer::Target, 0, 800, 0x55);
        c.ones(ring, 8, 20);
        c.true_header(ring, 28, 25, 4);
        c.new_block(7, [0, 0]);
        c.sector(ring, 148, 25, 5, 12, 40);
        if k % 3 == 1 {
            let hit = 28 + 80 + c.choose.within(40, 140);
            c.zeros(ring, hit, 5);
        }
        if k % 3 == 2 {
            let hit = 28 + c.choose.below(80);
            c.zeros(ring, hit, 4);
        }
        c.scan(ring, 25, 0);
        c.scan(ring, 25, 120);
        c.scan_and_read(ring, 25);
    }
}

fn refusals(c: &mut Cases) {
    c.heading("refusals");
    for n in [0, 1, 65_535, 65_536, 70_000] {
        for rows in [0, 194, 195] {
            c.row('s', &[0, n, 18, 0, 0, rows]);
        }
        c.read(Ring::new(0, n), 18, 5);
    }
}

pub fn all(c: &mut Cases) {
    starts(c);
    codes(c);
    stretches(c);
    changed_bits(c);
    random_rings(c);
    pieces(c);
    longest(c);
    far_data(c);
    header_for_data(c);
    refusals(c);
    cases_slips::all(c);
    cases_status::all(c);
    cases_symbols::all(c);
}
