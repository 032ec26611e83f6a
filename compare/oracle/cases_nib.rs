// Orbits of captures; NIB files with each fault of the catalogue; NIB files made of rings.
use crate::cases::{Buffer, Cases, Ring};
use crate::fdd1541::constants::{NIB_TRACK_BYTES_MAX, NIB_TRACK_BYTES_MIN};
use crate::machine::{LENGTHS, ZONES};

const WINDOW: u32 = 8192;

fn limits(zone: u8) -> (u32, u32, u32) {
    let low = NIB_TRACK_BYTES_MIN[usize::from(zone)] as u32;
    let high = NIB_TRACK_BYTES_MAX[usize::from(zone)] as u32;
    (low, low + (high - low) / 2, high)
}

fn orbit(c: &mut Cases, zone: u8) {
    c.row('o', &[0, WINDOW, u32::from(zone)]);
}

// The bytes from `period` on are those that stand `period` before them.
fn repeat(c: &mut Cases, period: u32) {
    c.copy(period, WINDOW - period, 0);
}

fn plain(c: &mut Cases) {
    c.heading("one byte value, noise, short periods");
    for zone in [0u8, 1, 2, 3, 4, 7, 255] {
        c.store(Buffer::Target, 0, WINDOW, zone.wrapping_mul(31));
        orbit(c, zone);
    }
    c.store(Buffer::Target, 0, WINDOW, 0);
    for zone in 0..4 {
        orbit(c, zone);
    }
    for zone in 0..4 {
        c.fill(Buffer::Target, 0, WINDOW);
        orbit(c, zone);
    }
    for period in [2, 3, 4, 5, 7, 8, 16, 32, 64, 100, 129, 256] {
        c.fill(Buffer::Target, 0, period);
        repeat(c, period);
        for zone in 0..4 {
            orbit(c, zone);
        }
    }
}

fn true_periods(c: &mut Cases) {
    c.heading("true periods at and beyond each limit");
    for zone in 0..4 {
        let (low, middle, high) = limits(zone);
        for span in [low - 1, low, low + 1, middle - 1, middle, middle + 1, high - 1, high, high + 1] {
            c.fill(Buffer::Target, 0, span);
            repeat(c, span);
            orbit(c, zone);
        }
    }
}

// Two spans agree over a part of the window each, in shares that are equal or nearly so.
fn two_periods(c: &mut Cases) {
    c.heading("two spans");
    for _ in 0..40 * c.scale {
        let zone = c.choose.below(4) as u8;
        let (low, _, high) = limits(zone);
        let one = c.choose.within(u64::from(low), u64::from(high)) as u32;
        let two = c.choose.within(u64::from(low), u64::from(high)) as u32;
        let share = c.choose.one_of(&[2, 3, 4]);
        c.fill(Buffer::Target, 0, WINDOW);
        let n = (WINDOW - one) / share;
        c.copy(one, n, 0);
        let n = (WINDOW - two) / share;
        c.copy(WINDOW - n, n, WINDOW - n - two);
        orbit(c, zone);
    }
}

// A quarter of the pairs agree, a few more or a few less.
fn a_quarter(c: &mut Cases) {
    c.heading("about a quarter agrees");
    for zone in 0..4 {
        let (low, middle, high) = limits(zone);
        for span in [low, middle + 9, high] {
            let quarter = (WINDOW - span) / 4;
            for n in (quarter - 10..=quarter + 2).step_by(3) {
                c.fill(Buffer::Target, 0, WINDOW);
                c.copy(span, n, 0);
                orbit(c, zone);
            }
        }
    }
}

// No byte of the first part stands in the second by chance: exactly n pairs agree at a span.
fn exact_quarter(c: &mut Cases) {
    c.heading("just a quarter agrees");
    for zone in 0..4 {
        let (low, _, high) = limits(zone);
        for span in [low, high] {
            let quarter = (WINDOW - span + 3) / 4;
            for n in [quarter - 1, quarter, quarter + 1] {
                c.store(Buffer::Target, 0, span, 1);
                c.store(Buffer::Target, span, WINDOW - span, 2);
                c.store(Buffer::Target, 0, n, 2);
                orbit(c, zone);
            }
        }
    }
}

fn damaged(c: &mut Cases) {
    c.heading("damaged copies");
    for k in 0..32 * c.scale {
        let zone = k as u8 % 4;
        let (low, _, high) = limits(zone);
        let span = c.choose.within(u64::from(low), u64::from(high)) as u32;
        c.fill(Buffer::Target, 0, span);
        repeat(c, span);
        let n = c.choose.one_of(&[50, 500, 5000, 12000]);
        c.flip(Ring::new(0, WINDOW), n);
        orbit(c, zone);
    }
}

fn built(c: &mut Cases) {
    c.heading("built tracks");
    for track in [1, 18, 25, 31] {
        let ring = c.new_track(0, track, 0);
        repeat(c, ring.n);
        for zone in 0..4 {
            orbit(c, zone);
        }
    }
}

fn other_lengths(c: &mut Cases) {
    c.heading("windows of other lengths");
    c.fill(Buffer::Target, 0, 6200);
    c.copy(6200, 3000, 0);
    for n in [0, 1, 6183, 8191, 8192, 8193] {
        c.row('o', &[0, n, 0]);
    }
}

pub fn orbits(c: &mut Cases) {
    plain(c);
    true_periods(c);
    two_periods(c);
    a_quarter(c);
    exact_quarter(c);
    damaged(c);
    built(c);
    other_lengths(c);
}

// A file's first 256 bytes with these pairs.
fn catalogue(c: &mut Cases, pairs: &[(u8, u8)]) {
    c.store(Buffer::Target, 0, 256, 0);
    c.put(Buffer::Target, 0, b"MNIB-1541-RAW\x01");
    let bytes: Vec<u8> = pairs.iter().flat_map(|&(code, zone)| [code, zone]).collect();
    c.put(Buffer::Target, 16, &bytes);
}

// Windows that repeat, so that orbits are found.
fn windows(c: &mut Cases, n: u32) {
    for k in 0..n {
        let at = 256 + k * WINDOW;
        let span = c.choose.within(6183, 7824) as u32;
        c.fill(Buffer::Target, at, span);
        c.copy(at + span, WINDOW - span, at);
    }
}

fn whole(c: &mut Cases, windows: u32) {
    c.row('n', &[0, 256 + windows * WINDOW]);
}

fn good_files(c: &mut Cases) {
    c.heading("good files");
    windows(c, 5);
    for pairs in
        [vec![(2, 0)], vec![(85, 3)], vec![(36, 2), (2, 3), (85, 0), (3, 1), (50, 255)], vec![(2, 4), (4, 9), (6, 130)]]
    {
        let n = pairs.len() as u32;
        catalogue(c, &pairs);
        whole(c, n);
        c.row('n', &[0, 256 + n * WINDOW + 1]);
        c.row('n', &[0, 256 + n * WINDOW - 1]);
        for slot in [0, 1, 2, 34, 48, 82, 83, 84, 1000] {
            c.row('w', &[0, 256 + n * WINDOW, slot]);
        }
    }
    // Pairs behind a code 0 are not looked at.
    catalogue(c, &[(2, 1), (0, 9), (1, 1), (2, 2), (200, 1)]);
    whole(c, 1);
    whole(c, 5);
}

fn faults(c: &mut Cases) {
    c.heading("faults of the catalogue");
    for pairs in [
        vec![(1, 0)],
        vec![(86, 0)],
        vec![(255, 0)],
        vec![(2, 0), (1, 3)],
        vec![(2, 0), (3, 0), (2, 1)],
        vec![(2, 0), (86, 0), (1, 0)],
        vec![(0, 0)],
        vec![(0, 0), (2, 0)],
    ] {
        catalogue(c, &pairs);
        whole(c, 5);
        c.row('n', &[0, 256]);
        c.row('w', &[0, 256 + 5 * WINDOW, 0]);
        c.row('w', &[0, 256 + 5 * WINDOW, 84]);
    }
    c.heading("signature and length");
    for k in 0..16 {
        catalogue(c, &[(2, 3)]);
        c.put(Buffer::Target, k, &[0x20]);
        whole(c, 1);
    }
    catalogue(c, &[(2, 3)]);
    for n in [0, 1, 13, 255, 256, 257, 256 + WINDOW - 1, 256 + WINDOW] {
        c.row('n', &[0, n]);
        c.row('w', &[0, n, 83]);
        c.row('w', &[0, n, 84]);
    }
}

fn full_file(c: &mut Cases) {
    c.heading("all 84 slots");
    let pairs: Vec<(u8, u8)> = (0..84).map(|k| (2 + (k * 37 % 84) as u8, k as u8)).collect();
    catalogue(c, &pairs);
    c.fill(Buffer::Target, 256, 84 * WINDOW);
    whole(c, 84);
    c.row('n', &[0, 256 + 84 * WINDOW - 1]);
    c.put(Buffer::Target, 16 + 2 * 84, &[2]);
    whole(c, 84);
    c.store(Buffer::Target, 16, 240, 2);
    whole(c, 84);
}

fn lengths(c: &mut Cases, list: &[u32]) {
    let bytes: Vec<u8> = list.iter().flat_map(|n| n.to_le_bytes()).collect();
    c.put(Buffer::Source, LENGTHS as u32, &bytes);
}

fn encode(c: &mut Cases, room: u32, list: &[u32], zones: u32) {
    let total: u32 = list.iter().take(84).sum();
    lengths(c, list);
    c.row('e', &[0, room, 0, total, list.len() as u32, zones]);
}

fn encodings(c: &mut Cases) {
    c.heading("files made of rings");
    c.fill(Buffer::Source, 0, 0x20000);
    c.fill(Buffer::Source, ZONES as u32, 100);
    c.store(Buffer::Target, 0, 0x20000, 0xA5);
    let room = 256 + 4 * WINDOW;
    for list in [
        vec![1],
        vec![7692],
        vec![8192, 1],
        vec![0, 0, 6250, 0, 9000],
        vec![1, 2, 3, 4],
        vec![0, 3000, 0, 0, 0, 65_535, 0, 5, 0],
    ] {
        for zones in [0, 1, list.len() as u32, 84, 90] {
            encode(c, room, &list, zones);
        }
    }
    let mut far = vec![0; 84];
    far[83] = 100;
    far[17] = 33;
    encode(c, room, &far, 84);
    c.heading("a file made, and read again");
    encode(c, room, &[6247, 0, 6662, 0, 7137, 7720], 6);
    whole(c, 4);
}

fn encodings_refused(c: &mut Cases) {
    let room = 256 + 4 * WINDOW;
    c.heading("refusals");
    encode(c, room, &[], 0);
    encode(c, room, &[0, 0, 0], 3);
    encode(c, room, &[65_536], 1);
    encode(c, room, &[65_536, 1, 1, 1, 1, 1, 1], 1);
    encode(c, 256 + WINDOW - 1, &[5], 1);
    encode(c, 0, &[5], 1);
    encode(c, 256 + 2 * WINDOW, &[5, 6, 7], 1);
    lengths(c, &[5, 6]);
    for total in [0, 10, 12] {
        c.row('e', &[0, room, 0, total, 2, 2]);
    }
    c.heading("more than 84 lengths");
    let mut late = vec![0; 86];
    late[0] = 9;
    late[84] = 50;
    encode(c, room, &late, 86);
    late[0] = 0;
    encode(c, room, &late, 86);
}

pub fn files(c: &mut Cases) {
    good_files(c);
    faults(c);
    full_file(c);
    encodings(c);
    encodings_refused(c);
}
