// What the cases of clearing share: a disk's BAM, links and chains, and its tracks.
use crate::cases::{Buffer, Cases};
use crate::fdd1541::{gcr, media};

pub const D64: u32 = 0;
pub const G64: u32 = 1;
pub const NIB: u32 = 2;
pub const TRACKS: [u8; 8] = [1, 2, 17, 18, 19, 25, 31, 35];
// Where the kept copy of an image stands in the target.
pub const KEPT: u32 = 0x50000;
pub const LINKS: [(u8, u8); 10] =
    [(18, 0), (18, 1), (18, 18), (18, 19), (36, 0), (35, 16), (3, 1), (0, 0), (1, 20), (1, 21)];

pub fn place(track: u8, sector: u8) -> u32 {
    media::place(track, sector) as u32
}

pub fn clear(c: &mut Cases, n: u32, kind: u32) {
    c.row('x', &[0, n, kind]);
}

pub fn link(c: &mut Cases, buffer: Buffer, from: (u8, u8), to: (u8, u8)) {
    c.put(buffer, place(from.0, from.1), &[to.0, to.1]);
}

// The BAM's first link, one directory sector, and the bitmap.
pub fn directory(c: &mut Cases, buffer: Buffer, bitmap: Option<u8>) {
    let bam = place(18, 0);
    match bitmap {
        None => c.fill(buffer, bam, 256),
        Some(byte) => c.store(buffer, bam, 256, byte),
    }
    link(c, buffer, (18, 0), (18, 1));
    link(c, buffer, (18, 1), (0, 255));
}

// A random valid address that is not 18/0.
pub fn address(c: &mut Cases, highest: u8) -> (u8, u8) {
    loop {
        let track = c.choose.within(1, u64::from(highest)) as u8;
        let sector = c.choose.below(u64::from(gcr::sectors_per_track(track))) as u8;
        if (track, sector) != (18, 0) {
            return (track, sector);
        }
    }
}

// A chain of different sectors from 18/0 on; its last link is `end`.
pub fn chain(c: &mut Cases, buffer: Buffer, highest: u8, long: usize, end: (u8, u8)) -> Vec<(u8, u8)> {
    let mut visited = Vec::new();
    while visited.len() < long {
        let next = address(c, highest);
        if !visited.contains(&next) {
            visited.push(next);
        }
    }
    let mut from = (18, 0);
    for &to in &visited {
        link(c, buffer, from, to);
        from = to;
    }
    link(c, buffer, from, end);
    visited
}

// The disk's sectors stand in the source; free are the lowest and some other sectors of each track.
pub fn disk(c: &mut Cases) {
    c.fill(Buffer::Source, 0, place(36, 0));
    directory(c, Buffer::Source, Some(0x05));
    // some sectors are zero already
    for (track, sector) in [(1, 0), (17, 2), (19, 8), (31, 2)] {
        c.store(Buffer::Source, place(track, sector), 256, 0);
    }
}

// A track of that disk, built at a place of the target.
pub fn disk_track(c: &mut Cases, at: u32, track: u8, codes: u32) -> u32 {
    let room = gcr::capacity(track) as u32;
    let bytes = 256 * u32::from(gcr::sectors_per_track(track));
    c.row('T', &[at, room, u32::from(track) << 16 | 0x4142, place(track, 0), bytes, codes]);
    room
}

pub fn again(c: &mut Cases, n: u32) {
    c.copy(0, n, KEPT);
}

// A random chain in the source, and the tracks that it and the BAM stand on.
pub fn track_chain(c: &mut Cases, long: usize) -> Vec<u8> {
    let end = (0, c.choose.byte());
    let mut tracks: Vec<u8> = chain(c, Buffer::Source, 35, long, end).iter().map(|&(track, _)| track).collect();
    tracks.push(18);
    tracks.sort();
    tracks.dedup();
    tracks
}
