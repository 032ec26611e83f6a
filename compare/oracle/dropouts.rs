// The lines of replay_dropouts: the original's built tracks, a stretch of each forced to zero with its own bit
// writer, read with its own reader from many bits; and what became of each sector, sorted here. Statuses are the model's.
use crate::asked;
use crate::draw::{Bytes, Sum};
use crate::fdd1541::gcr;

const CODES: [u8; 21] = [1, 0, 2, 1, 3, 11, 4, 1, 5, 0, 9, 1, 0, 2, 1, 11, 1, 4, 1, 9, 0];
const EDGES: [usize; 6] = [0, 40, 120, 192, 232, 2832];

struct Track {
    number: u8,
    payloads: Vec<[u8; 256]>,
    ring: Vec<u8>,
    // The bits of each sector, from its first sync to the end of its data.
    sectors: Vec<std::ops::Range<usize>>,
}

impl Track {
    fn new(number: u8, draw: &mut Bytes) -> Track {
        let mut payloads = vec![[0u8; 256]; 21];
        for payload in payloads.iter_mut() {
            payload.iter_mut().for_each(|byte| *byte = draw.byte());
        }
        let ring = gcr::build_track_with_errors(number, &payloads, &CODES, 0x41, 0x30);
        let count = gcr::sectors_per_track(number);
        let sectors = (0..count).map(|j| sector_bits(number, j)).collect();
        payloads.truncate(usize::from(count));
        Track { number, payloads, ring, sectors }
    }

    fn bits(&self) -> usize {
        8 * self.ring.len()
    }

    // The ring with the stretch forced to zero, and which of its bits the stretch has.
    fn damaged(&self, place: usize, length: usize) -> (Vec<u8>, Vec<bool>) {
        let mut ring = self.ring.clone();
        let mut hit = vec![false; self.bits()];
        for k in 0..length {
            gcr::set_bit(&mut ring, place + k, 0);
            hit[(place + k) % self.bits()] = true;
        }
        (ring, hit)
    }
}

// Where the original lays a sector: the bytes in which a track with that sector differs from one whose slot is all gap.
fn sector_bits(track: u8, sector: u8) -> std::ops::Range<usize> {
    let mut codes = [1u8; 21];
    let with = gcr::build_track_with_errors(track, &[], &codes, 0x41, 0x30);
    codes[usize::from(sector)] = 3;
    let without = gcr::build_track_with_errors(track, &[], &codes, 0x41, 0x30);
    let differ = |i: &usize| with[*i] != without[*i];
    let first = (0..with.len()).find(differ).expect("a sector");
    let last = (0..with.len()).rev().find(differ).expect("a sector");
    8 * first..8 * (last + 1)
}

#[derive(Default)]
struct Counts {
    reads: u32,
    escaped: u32,
    own: u32,
    missing: u32,
    spoiled: u32,
    other: u32,
}

impl Counts {
    fn sector(&mut self, code: u8, hit: bool, status: u8, read: Option<[u8; 256]>, payload: [u8; 256]) {
        let spoils = [2, 3, 4, 5, 9].contains(&code);
        // a sector of these codes that the stretch left alone has its code for its status
        let another = [4, 5, 9].contains(&code) && !hit && status != code;
        match read {
            None if another => self.other += 1,
            None if spoils => self.spoiled += 1,
            None if hit => self.missing += 1,
            Some(bytes) if !spoils && bytes == payload && hit => self.own += 1,
            Some(bytes) if !spoils && bytes == payload => self.escaped += 1,
            _ => self.other += 1,
        }
    }

    fn line(&self, track: u8, sum: &Sum) -> String {
        format!(
            "track {} reads {} escaped {} hit own {} hit missing {} spoiled missing {} other {} sum {:08X}\n",
            track, self.reads, self.escaped, self.own, self.missing, self.spoiled, self.other, sum.0
        )
    }
}

fn lengths(bits: usize) -> [usize; 6] {
    [1, 5, 10, 2832, bits - 2832, bits]
}

fn read(track: &Track, place: usize, length: usize, start: usize, counts: &mut Counts, sum: &mut Sum) {
    let (ring, hit) = track.damaged(place, length);
    let read = asked::read(&ring, track.number, start as u64, true).expect("a ring");
    counts.reads += 1;
    for (j, bits) in track.sectors.iter().enumerate() {
        let hit = hit[bits.clone()].contains(&true);
        counts.sector(CODES[j], hit, read.statuses[j], read.sectors[j], track.payloads[j]);
        sum.byte(read.statuses[j]);
    }
}

// Anywhere, or among the first bits of a slot, where the scan begins within a sync.
fn start(track: &Track, k: usize, state: u32) -> usize {
    if k % 2 == 0 {
        state as usize
    } else {
        track.sectors[k % track.sectors.len()].start + (state / 65_536 % 64) as usize
    }
}

fn track_line(number: u8) -> String {
    let mut draw = Bytes::new(u32::from(number));
    let track = Track::new(number, &mut draw);
    let mut counts = Counts::default();
    let mut sum = Sum::new();
    for k in 0..864 {
        let sector = (usize::from(number) + 5 * (k / 108)) % track.sectors.len();
        let place = track.sectors[sector].start + EDGES[k / 3 % 6] + track.bits() - 1 + k % 3;
        let length = lengths(track.bits())[k / 18 % 6];
        let start = start(&track, k, draw.state());
        read(&track, place, length, start, &mut counts, &mut sum);
    }
    counts.line(number, &sum)
}

pub fn lines() -> Vec<u8> {
    [1, 18, 25, 31, 36, 42].map(track_line).concat().into_bytes()
}
