// Disks: all sectors in D64 order, a BAM, a directory chain, good or wrong; and the D64 images made of them.
use crate::craft::bytes;
use crate::draw::Chooser;
use crate::fdd1541::{gcr, media};
use crate::judge::Judge;

pub const D64: u32 = 0;
pub type Address = (u8, u8);

pub struct Disk {
    pub bytes: Vec<u8>,
    // the chain's sectors, as far as it is good
    pub chain: Vec<Address>,
}

impl Disk {
    pub fn payload(&self, (track, sector): Address) -> [u8; 256] {
        let at = media::place(track, sector);
        self.bytes[at..at + 256].try_into().expect("256 bytes")
    }

    pub fn link(&mut self, (track, sector): Address, to: Address) {
        let at = media::place(track, sector);
        self.bytes[at] = to.0;
        self.bytes[at + 1] = to.1;
    }
}

// The bitmaps: none free, all, few, half, or the lowest of each track.
fn bam(c: &mut Chooser, disk: &mut Disk) {
    let at = media::place(18, 0);
    let kind = c.below(6);
    for byte in &mut disk.bytes[at..at + 256] {
        *byte = match kind {
            0 => 0,
            1 => 0xFF,
            2 => 0x05,
            3 => c.byte() & c.byte() & c.byte(),
            _ => c.byte(),
        };
    }
}

pub fn address(c: &mut Chooser, highest: u8) -> Address {
    loop {
        let track = c.within(1, u64::from(highest)) as u8;
        let sector = c.below(u64::from(gcr::sectors_per_track(track))) as u8;
        if (track, sector) != (18, 0) {
            return (track, sector);
        }
    }
}

// How a chain ends: by track 0, or wrongly.
fn end(c: &mut Chooser, highest: u8, chain: &[Address]) -> Address {
    match c.below(20) {
        0 => (18, 0),
        1 => chain.get(c.below(12) as usize).copied().unwrap_or((18, 0)),
        2 => (highest + 1, c.one_of(&[0, 0, 1, 2, 16])),
        3 => {
            let track = c.within(1, 42) as u8;
            (track, gcr::sectors_per_track(track) + c.below(3) as u8)
        }
        4 => (c.byte(), c.byte()),
        _ => (0, c.byte()),
    }
}

// A disk whose chain stands on track 18, or anywhere. Some sectors are zeros already, or have one byte.
pub fn disk(c: &mut Chooser, highest: u8) -> Disk {
    let mut disk = Disk { bytes: bytes(c, 256 * media::sectors_to(42)), chain: Vec::new() };
    bam(c, &mut disk);
    for _ in 0..c.below(200) {
        let (track, sector) = address(c, 42);
        let at = media::place(track, sector);
        disk.bytes[at..at + 256].fill(0);
        if c.below(2) == 0 {
            disk.bytes[at + c.one_of(&[0, 2, 100, 255])] = 1;
        }
    }
    let long = if c.below(16) == 0 { 0 } else { c.within(1, 6) };
    for k in 0..long {
        let next = if c.below(2) == 0 { (18, 1 + k as u8) } else { address(c, highest) };
        if !disk.chain.contains(&next) {
            disk.chain.push(next);
        }
    }
    let mut from = (18, 0);
    for to in disk.chain.clone() {
        disk.link(from, to);
        from = to;
    }
    let to = end(c, highest, &disk.chain.clone());
    disk.link(from, to);
    disk
}

// Every size with and without error bytes, one byte off, and any.
fn size(c: &mut Chooser, tracks: u8) -> usize {
    let sectors = media::sectors_to(tracks);
    let size = if c.below(2) == 0 { 256 * sectors } else { 257 * sectors };
    match c.below(12) {
        0 => size - 1,
        1 => size + 1,
        2 => c.below(size as u64) as usize,
        _ => size,
    }
}

// Error bytes may be read as sectors of a track that the image has not: a link there is out of range all the same.
fn above_the_highest(judge: &mut Judge, c: &mut Chooser) {
    judge.about = "links about the highest track".to_string();
    for tracks in 35..=42u8 {
        let size = 257 * media::sectors_to(tracks);
        for (above, sector) in [(0, 0), (0, 16), (0, 17), (1, 0), (1, 1), (1, 2), (2, 0)] {
            for errors in [0, 1] {
                let mut made = disk(c, 35);
                made.link((18, 0), (tracks + above, sector));
                if above == 0 && sector < 17 {
                    made.link((tracks, sector), (0, 0));
                }
                made.bytes.truncate(256 * media::sectors_to(tracks));
                made.bytes.resize(size, errors);
                judge.clear(&mut made.bytes, D64);
            }
        }
    }
}

// Every address about those that there are, and some far off.
pub fn every_address() -> impl Iterator<Item = Address> {
    (0..=44).chain([128, 255]).flat_map(|track| (0..=22).chain([255]).map(move |sector| (track, sector)))
}

pub fn valid((track, sector): Address, highest: u8) -> bool {
    (1..=highest).contains(&track) && sector < gcr::sectors_per_track(track)
}

// Every first link, and every link of 18/1; where it leads to a sector, the chain ends there.
fn every_link(judge: &mut Judge, c: &mut Chooser) {
    judge.about = "every link".to_string();
    for tracks in [35, 41, 42] {
        for to in every_address() {
            let mut made = disk(c, 35);
            if valid(to, tracks) {
                made.link(to, (0, to.1));
            }
            made.link((18, 0), (18, 1));
            let from = if c.below(2) == 0 { (18, 0) } else { (18, 1) };
            made.link(from, to);
            made.bytes.truncate(256 * media::sectors_to(tracks));
            judge.clear(&mut made.bytes, D64);
        }
    }
}

// Every track count, with and without error bytes, and lengths about each.
fn every_size(judge: &mut Judge, c: &mut Chooser) {
    judge.about = "every D64 size, and about it".to_string();
    for tracks in 33..=43u8 {
        let made = disk(c, 35);
        for whole in [256, 257] {
            let size = whole * media::sectors_to(tracks);
            for n in size - 2..=size + 2 {
                let mut image = made.bytes.clone();
                image.resize(n, 0x33);
                judge.clear(&mut image, D64);
            }
        }
    }
}

// A chain through every sector of a disk of 42 tracks.
fn longest_chain(judge: &mut Judge, c: &mut Chooser) {
    judge.about = "a chain through every sector".to_string();
    let mut made = disk(c, 42);
    let mut all: Vec<Address> =
        (1..=42).flat_map(|t| (0..gcr::sectors_per_track(t)).map(move |s| (t, s))).filter(|&a| a != (18, 0)).collect();
    for k in 0..all.len() {
        let other = c.within(k as u64, all.len() as u64 - 1) as usize;
        all.swap(k, other);
    }
    let mut from = (18, 0);
    for &to in &all {
        made.link(from, to);
        from = to;
    }
    for last in [(0, 7), (18, 0), all[0], all[400], *all.last().expect("801 sectors"), (43, 0)] {
        made.link(from, last);
        judge.clear(&mut made.bytes.clone(), D64);
    }
}

pub fn all(judge: &mut Judge, c: &mut Chooser, many: u64) {
    every_size(judge, c);
    above_the_highest(judge, c);
    every_link(judge, c);
    longest_chain(judge, c);
    judge.about = "D64 images".to_string();
    for _ in 0..700 * many {
        let tracks = if c.below(2) == 0 { 35 } else { c.within(35, 42) as u8 };
        let made = disk(c, tracks);
        let mut image = made.bytes;
        image.truncate(256 * media::sectors_to(tracks));
        let (n, errors) = (size(c, tracks), c.one_of(&[0, 1, 5]));
        image.resize(n, errors);
        let again = judge.clear(&mut image, D64) && c.below(8) == 0;
        if again {
            judge.clear(&mut image, D64);
        }
    }
}
