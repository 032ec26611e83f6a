// Rings with records: pieces put together, a few sectors cut out of a track, whole tracks, captures, and the limits.
use crate::asked::{SCAN_BYTES, SCAN_NUMBERS};
use crate::craft::{
    any_spacing, any_start, any_track, background, block_of, built, bytes, damaged, header, payload, rotated, sector,
    set, Spacing, ZONE_TRACKS,
};
use crate::draw::Chooser;
use crate::fdd1541::gcr;
use crate::judge::Judge;
use crate::small_rings::ask;

// Every question about a ring, the sector's with both rules; a replaced sector is read again.
fn ask_all(judge: &mut Judge, c: &mut Chooser, ring: &[u8], track: u8) {
    ask(judge, c, ring, track);
    let records = judge.scan(ring, track, 0, SCAN_NUMBERS, SCAN_BYTES);
    let wanted = match records.len() as u64 {
        0 => c.below(22) as u8,
        n => records[c.below(n) as usize].sector,
    };
    for unique in [true, false] {
        let mut copy = ring.to_vec();
        judge.sector(&copy, track, wanted, unique);
        let data = payload(c);
        judge.replace(&mut copy, track, wanted, &data, unique);
        judge.sector(&copy, track, wanted, unique);
    }
}

fn piece(c: &mut Chooser, ring: &mut [u8], at: Spacing, track: u8) -> u64 {
    let number = c.one_of(&[0, 1, 2, 3, 4, 16, 17, 18, 20, 21, 23]);
    let marker = c.one_of(&[7, 7, 7, 7, 8, 0, 15]);
    let mut block = block_of(marker, &payload(c), c.one_of(&[[0, 0], [15, 15], [0xFF, 0xFF]]));
    let behind = at.bit + at.ones;
    match c.below(9) {
        0 => {
            set(ring, at.bit, at.ones, 1);
            crate::craft::true_header(c, ring, behind, track, number);
            behind + 80 + at.gap
        }
        1 => {
            set(ring, at.bit, at.ones, 1);
            gcr::write_code(ring, behind as usize, &block);
            behind + 2600
        }
        2 => {
            set(ring, at.bit, at.ones, 1);
            header(ring, behind, &[8, c.byte(), number, track, 0x41, 0x42, 15, 15]);
            behind + 80
        }
        3 => sector(c, ring, at, track ^ 1, number, &block),
        4 => {
            block[c.below(260) as usize] ^= 1 << c.below(8);
            sector(c, ring, at, track, number, &block)
        }
        _ => sector(c, ring, at, track, number, &block),
    }
}

fn pieces(c: &mut Chooser, track: u8) -> Vec<u8> {
    let n = c.within(338, 2400) as usize;
    let mut ring = background(c, n);
    let mut bit = c.below(8 * n as u64);
    let end = bit + 8 * n as u64;
    while bit < end {
        let at = any_spacing(c, bit);
        bit = piece(c, &mut ring, at, track);
    }
    ring
}

// One to four sectors of a built track, equal ones among them, turned to begin at any bit.
fn few_sectors(c: &mut Chooser, track: u8) -> Vec<u8> {
    let track_ring = built(c, track);
    let long = 354 + c.within(0, 22) as usize;
    let mut ring = Vec::new();
    for _ in 0..c.within(1, 4) {
        let at = 366 * c.below(16) as usize;
        let piece = track_ring[at..at + long].to_vec();
        for _ in 0..c.one_of(&[1, 1, 1, 2]) {
            ring.extend_from_slice(&piece);
        }
    }
    let bits = 8 * ring.len() as u64;
    rotated(&ring, c.below(bits))
}

// A capture: the beginning of the next turn behind a turn, the same, damaged, or of other payloads.
fn capture(c: &mut Chooser, track: u8) -> Vec<u8> {
    let ring = built(c, track);
    let next = if c.below(3) == 0 { built(c, track) } else { ring.clone() };
    let mut window: Vec<u8> = ring.into_iter().chain(next).take(8192).collect();
    for _ in 0..c.below(3) {
        damaged(c, &mut window);
    }
    window
}

fn whole(c: &mut Chooser, track: u8) -> Vec<u8> {
    let mut ring = built(c, track);
    for _ in 0..c.below(4) {
        damaged(c, &mut ring);
    }
    ring
}

// A first sync of 8 to 18 ones at the join, a block that ends about the ring's end.
fn at_the_join(c: &mut Chooser, track: u8) -> Vec<u8> {
    let n = c.within(338, 420) as usize;
    let mut ring = background(c, n);
    let block = block_of(7, &payload(c), [0, 0]);
    let ones = c.within(8, 18);
    let at = Spacing { bit: 8 * n as u64 - c.below(3), ones, gap: c.below(40) };
    let number = c.below(17) as u8;
    set(&mut ring, at.bit - 1, 1, 0);
    sector(c, &mut ring, at, track, number, &block);
    ring
}

// Records as close as they come on the longest ring, and short periods.
fn longest(c: &mut Chooser, track: u8) -> Vec<u8> {
    let mut period = match c.below(3) {
        0 => noise_period(c),
        _ => vec![0x55; 675],
    };
    if period.len() == 675 {
        let block = block_of(7, &payload(c), [0, 0]);
        let first = Spacing { bit: 0, ones: 10, gap: 0 };
        let bit = sector(c, &mut period, first, track, 3, &block);
        sector(c, &mut period, Spacing { bit, ..first }, track, 16, &block);
    }
    let n = c.one_of(&[65_535, 65_535, 65_534, 65_536, 65_537]);
    period.iter().cycle().take(n).copied().collect()
}

fn noise_period(c: &mut Chooser) -> Vec<u8> {
    let n = c.one_of(&[1, 2, 3, 37, 256, 4093]);
    bytes(c, n).into_iter().map(|b| b | 0x18).collect()
}

// A record of every track and every sector number, below the track's count and not.
fn every_record(judge: &mut Judge, c: &mut Chooser) {
    judge.about = "a record of every track and sector".to_string();
    for track in 0..=255 {
        for number in (0..=22).chain([128, 255]) {
            let mut ring = vec![0x55; 380];
            let block = block_of(7, &payload(c), [0, 0]);
            let at = Spacing { bit: c.below(3040), ones: 40, gap: 72 };
            sector(c, &mut ring, at, track, number, &block);
            judge.scan(&ring, track, 0, SCAN_NUMBERS, SCAN_BYTES);
            let n = usize::from(gcr::sectors_per_track(track));
            judge.read(&ring, track, 0, 256 * n, n);
            judge.sector(&ring, track, number, number % 2 == 0);
            judge.replace(&mut ring, track, number, &[track; 256], number % 2 == 1);
        }
    }
}

// Each room at its limit and beside it, on rings of each refused length.
fn rooms(judge: &mut Judge, c: &mut Chooser) {
    judge.about = "rooms and lengths".to_string();
    let most = built(c, 1).into_iter().cycle().take(65_536).collect::<Vec<u8>>();
    for n in [0, 1, 400, 7692, 65_535, 65_536] {
        let ring = &most[..n];
        let track = c.one_of(&ZONE_TRACKS);
        for numbers in [0, 1, 389, 390, 391] {
            for bytes in [0, 256, 49_919, 49_920, 49_921] {
                judge.scan(ring, track, any_start(c, ring), numbers, bytes);
            }
        }
        let k = usize::from(gcr::sectors_per_track(track));
        for bytes in [0, 256 * k - 1, 256 * k, 256 * k + 1] {
            for statuses in [0, k - 1, k, k + 1] {
                judge.read(ring, track, any_start(c, ring), bytes, statuses);
            }
        }
        for unique in [true, false] {
            judge.sector(ring, track, 0, unique);
            judge.replace(&mut ring.to_vec(), track, 0, &[7; 256], unique);
        }
    }
}

pub fn all(judge: &mut Judge, c: &mut Chooser, size: u64) {
    rooms(judge, c);
    every_record(judge, c);
    let kinds: [(&str, u64, fn(&mut Chooser, u8) -> Vec<u8>); 6] = [
        ("pieces", 2_000, pieces),
        ("few sectors", 1_500, few_sectors),
        ("at the join", 1_500, at_the_join),
        ("whole tracks", 250, whole),
        ("captures", 120, capture),
        ("longest", 8, longest),
    ];
    for (name, many, make) in kinds {
        judge.about = format!("rings with records, {name}");
        for k in 0..many * size {
            let track = any_track(c);
            let mut ring = make(c, track);
            if k % 3 == 0 && ring.len() < 3000 {
                damaged(c, &mut ring);
            }
            ask_all(judge, c, &ring, track);
        }
    }
}
