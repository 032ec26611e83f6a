// The inputs: a disk of random sectors that are free but for the directory, and its images.
use crate::draw::Bytes;
use crate::fdd1541::{gcr, media};

const WINDOW: usize = 8_192;
pub const TRACKS: u8 = 35;

pub fn random(seed: u32, n: usize) -> Vec<u8> {
    let mut draw = Bytes::new(seed);
    (0..n).map(|_| draw.byte()).collect()
}

// The directory is 18/1 alone; every sector is marked free, and 18/0 and 18/1 are kept all the same.
pub fn d64() -> Vec<u8> {
    let mut disk = random(1541, 256 * media::sectors_to(TRACKS));
    let bam = media::place(18, 0);
    disk[bam..bam + 256].fill(0xFF);
    disk[bam..bam + 2].copy_from_slice(&[18, 1]);
    let directory = media::place(18, 1);
    disk[directory..directory + 2].copy_from_slice(&[0, 255]);
    disk
}

pub fn payloads(disk: &[u8], track: u8) -> Vec<u8> {
    let at = media::place(track, 0);
    disk[at..at + 256 * usize::from(gcr::sectors_per_track(track))].to_vec()
}

pub fn sectors(payloads: &[u8]) -> Vec<[u8; 256]> {
    payloads.chunks(256).map(|c| c.try_into().expect("256 bytes")).collect()
}

pub fn ring(disk: &[u8], track: u8) -> Vec<u8> {
    gcr::build_track(track, &sectors(&payloads(disk, track)), 0x41, 0x42)
}

// A ring repeated over a window.
pub fn window(ring: &[u8]) -> Vec<u8> {
    ring.iter().cycle().take(WINDOW).copied().collect()
}

pub fn zone(track: u8) -> u8 {
    match track {
        1..=17 => 3,
        18..=24 => 2,
        25..=30 => 1,
        _ => 0,
    }
}

pub fn g64(disk: &[u8]) -> Vec<u8> {
    let mut image = vec![0; 12 + 84 * 8];
    image[..8].copy_from_slice(b"GCR-1541");
    image[9] = 84;
    image[10..12].copy_from_slice(&7928u16.to_le_bytes());
    for track in 1..=TRACKS {
        let entry = 12 + 8 * (usize::from(track) - 1);
        let to = image.len() as u32;
        image[entry..entry + 4].copy_from_slice(&to.to_le_bytes());
        let ring = ring(disk, track);
        image.extend_from_slice(&(ring.len() as u16).to_le_bytes());
        image.extend_from_slice(&ring);
    }
    image
}

pub fn nib(disk: &[u8], tracks: u8) -> Vec<u8> {
    let mut image = vec![0; 256];
    image[..14].copy_from_slice(b"MNIB-1541-RAW\x01");
    for track in 1..=tracks {
        let pair = 16 + 2 * (usize::from(track) - 1);
        image[pair] = 2 * track;
        image[pair + 1] = zone(track);
        image.extend(window(&ring(disk, track)));
    }
    image
}
