// G64 and NIB images of disks: short rings and windows with the sectors that the directory needs and some others; tables
// and catalogues with faults; entries that overlap each other, the tables and the header; images cut short; damage.
use crate::asked::WINDOW;
use crate::craft::{any_spacing, background, block_of, damaged, sector, set, true_header, Spacing};
use crate::disks::{address, disk, every_address, valid, Address, Disk};
use crate::draw::Chooser;
use crate::fdd1541::gcr;
use crate::judge::Judge;
use crate::windows::repeated;

const G64: u32 = 1;
const NIB: u32 = 2;
const HEADER: usize = 12;

// The tracks that an image holds: 18, most of the chain's, and some others.
fn tracks(c: &mut Chooser, disk: &Disk) -> Vec<u8> {
    let mut list = vec![18];
    list.extend(disk.chain.iter().map(|&(track, _)| track).filter(|&track| track <= 35));
    for _ in 0..c.below(4) {
        list.push(c.within(1, 35) as u8);
    }
    list.sort();
    list.dedup();
    list.retain(|_| c.below(80) > 0);
    for k in 0..list.len() {
        let other = c.within(k as u64, list.len() as u64 - 1) as usize;
        list.swap(k, other);
    }
    list
}

// The sectors that a track's ring holds: its part of the BAM and of the chain, and some others, now and then one twice.
fn sectors(c: &mut Chooser, disk: &Disk, track: u8) -> Vec<Address> {
    let mut list: Vec<Address> = disk.chain.iter().copied().filter(|&(t, _)| t == track).collect();
    if track == 18 {
        list.push((18, 0));
    }
    for _ in 0..c.below(4) {
        list.push((track, c.below(u64::from(gcr::sectors_per_track(track))) as u8));
    }
    list.sort();
    if c.below(16) > 0 {
        list.dedup();
    }
    list
}

// A ring of just those sectors, well spaced; now and then damaged.
fn ring(c: &mut Chooser, disk: &Disk, list: &[Address]) -> Vec<u8> {
    let n = 370 * list.len().max(1) + c.below(60) as usize;
    let mut ring = if c.below(8) == 0 { background(c, n) } else { vec![0x55; n] };
    let mut bit = c.below(8 * n as u64);
    for &(track, number) in list {
        let block = block_of(7, &disk.payload((track, number)), [0, 0]);
        let plain = Spacing { bit, ones: 40, gap: 72 };
        let at = if c.below(40) == 0 { any_spacing(c, bit) } else { plain };
        bit = sector(c, &mut ring, at, track, number, &block) + 96;
    }
    if c.below(24) == 0 {
        damaged(c, &mut ring);
    }
    ring
}

struct G64Image {
    bytes: Vec<u8>,
    entries: Vec<(u8, usize)>,
}

impl G64Image {
    fn new(half_tracks: u8, most: u16) -> G64Image {
        let mut bytes = vec![0; HEADER + 8 * usize::from(half_tracks)];
        bytes[..8].copy_from_slice(b"GCR-1541");
        bytes[9] = half_tracks;
        bytes[10..12].copy_from_slice(&most.to_le_bytes());
        G64Image { bytes, entries: Vec::new() }
    }

    // An entry of a half-track: the place of its two length bytes.
    fn entry(&mut self, half: usize, to: usize) {
        let at = HEADER + 4 * half;
        if at + 4 <= self.bytes.len() {
            self.bytes[at..at + 4].copy_from_slice(&(to as u32).to_le_bytes());
        }
    }

    fn add(&mut self, track: u8, ring: &[u8]) {
        let to = self.bytes.len();
        self.entry(2 * (usize::from(track) - 1), to);
        self.entries.push((track, to));
        self.bytes.extend_from_slice(&(ring.len() as u16).to_le_bytes());
        self.bytes.extend_from_slice(ring);
    }
}

// A second track's entry among the bytes of the first, at the same place, or in the tables or the header.
fn overlap(c: &mut Chooser, image: &mut G64Image) {
    if image.entries.is_empty() {
        return;
    }
    let half = c.below(70) as usize;
    let (_, to) = c.one_of(&image.entries);
    let n = image.bytes.len() as u64;
    match c.below(4) {
        0 => image.entry(half, to),
        1 => {
            let inside = (to + 2 + c.below(500) as usize).min(image.bytes.len() - 2);
            let long = c.within(1, 2_000).min(n - inside as u64 - 2) as u16;
            image.bytes[inside..inside + 2].copy_from_slice(&long.to_le_bytes());
            image.entry(half, inside);
        }
        2 => image.entry(half, c.within(1, 700.min(n)) as usize),
        _ => image.entry(half, c.within(1, n) as usize),
    }
}

// A track's length bytes are those of the largest size: its ring begins behind the header, and has the tables and every
// other ring in it, its own among them. Where another track does so too, each clears within the other's ring.
fn whole_image(c: &mut Chooser, image: &mut G64Image) {
    let Ok(most) = u16::try_from(image.bytes.len() - HEADER) else { return };
    image.bytes[10..12].copy_from_slice(&most.to_le_bytes());
    for _ in 0..2 {
        if !image.entries.is_empty() {
            let (track, _) = c.one_of(&image.entries);
            image.entry(2 * (usize::from(track) - 1), 10);
        }
    }
}

// One block for two tracks: a header of the first before it, one of the second behind it, at the end of the second ring,
// whose join lies just before the block.
fn shared_block(c: &mut Chooser, disk: &Disk, image: &mut G64Image) {
    let (first, second) = (address(c, 35), address(c, 35));
    let at = image.bytes.len();
    let mut part = vec![0x55; 900];
    let sync = c.one_of(&[10, 11, 20, 20]);
    set(&mut part, 8 * 50 - 40, 40, 1);
    true_header(c, &mut part, 8 * 50, first.0, first.1);
    set(&mut part, 8 * 80 - sync, sync, 1);
    gcr::write_code(&mut part, 8 * 80, &block_of(7, &disk.payload(first), [0, 0]));
    set(&mut part, 8 * 478 - sync, sync, 1);
    true_header(c, &mut part, 8 * 478, second.0, second.1);
    let long = 420 + c.below(3) as u16;
    part[..2].copy_from_slice(&500u16.to_le_bytes());
    part[70..72].copy_from_slice(&long.to_le_bytes());
    image.bytes.extend_from_slice(&part);
    image.entry(2 * (usize::from(first.0) - 1), at);
    image.entry(2 * (usize::from(second.0) - 1), at + 70);
}

fn spoil_g64(c: &mut Chooser, image: &mut Vec<u8>) {
    let n = image.len() as u64;
    match c.below(24) {
        0 => image[c.below(12) as usize] ^= 1 << c.below(8),
        1 => image[9] = c.one_of(&[0, 1, 34, 35, 36, 84, 85, 255]),
        2 => image[10..12].copy_from_slice(&[c.byte(), c.below(4) as u8]),
        3 => image[12 + c.below(680) as usize % (n as usize - 12)] = c.byte(),
        4 => image.truncate(c.below(n + 1) as usize),
        5 => image.truncate(c.one_of(&[0, 7, 8, 11, 12, 13, 291, 292, 683, 684])),
        6 => image.truncate(n as usize - 1),
        7 => image.extend_from_slice(&[0x55; 99]),
        _ => {}
    }
}

fn g64(c: &mut Chooser) -> Vec<u8> {
    let made = disk(c, 35);
    let halves = if c.below(4) == 0 { c.within(33, 84) as u8 } else { 84 };
    let mut image = G64Image::new(halves, 7928);
    for track in tracks(c, &made) {
        let list = sectors(c, &made, track);
        image.add(track, &ring(c, &made, &list));
    }
    match c.below(8) {
        0 => overlap(c, &mut image),
        1 => (0..3).for_each(|_| overlap(c, &mut image)),
        2 => whole_image(c, &mut image),
        3 => shared_block(c, &made, &mut image),
        _ => {}
    }
    spoil_g64(c, &mut image.bytes);
    image.bytes
}

// A window: a ring repeated, or once, its second turn of other payloads, or damaged.
fn window(c: &mut Chooser, disk: &mut Disk, list: &[Address]) -> Vec<u8> {
    let one = ring(c, disk, list);
    let other = match c.below(6) {
        0 => {
            let kept = disk.bytes.clone();
            let at = crate::fdd1541::media::place(list[0].0, list[0].1);
            disk.bytes[at + 9] ^= 1;
            let other = ring(c, disk, list);
            disk.bytes = kept;
            other
        }
        1 | 2 => vec![0x55; WINDOW],
        _ => one.clone(),
    };
    one.iter().chain(other.iter().cycle()).take(WINDOW).copied().collect()
}

fn spoil_nib(c: &mut Chooser, image: &mut Vec<u8>, pairs: usize) {
    let at = 16 + 2 * c.below(pairs as u64 + 1) as usize;
    let n = image.len() as u64;
    match c.below(20) {
        0 => image[c.below(16) as usize] ^= 1 << c.below(8),
        1 => image[at] = c.one_of(&[0, 1, 2, 36, 85, 86, 255]),
        2 => image.truncate(c.below(n + 1) as usize),
        3 => image.truncate(n as usize - 1),
        4 => image.truncate(c.one_of(&[0, 13, 255, 256, 257])),
        5 => image.extend_from_slice(&[0x55; 99]),
        _ => {}
    }
}

fn nib(c: &mut Chooser) -> Vec<u8> {
    let mut made = disk(c, 35);
    let mut image = vec![0; 256];
    image[..14].copy_from_slice(b"MNIB-1541-RAW\x01");
    let list = tracks(c, &made);
    for (k, &track) in list.iter().enumerate() {
        let half = u8::from(c.below(24) == 0);
        image[16 + 2 * k] = 2 * track + half;
        image[17 + 2 * k] = c.byte();
        let mut held = sectors(c, &made, track);
        if held.is_empty() {
            held.push((track, 0));
        }
        let one = window(c, &mut made, &held);
        image.extend(one);
    }
    spoil_nib(c, &mut image, list.len());
    image
}

// Every link of 18/0, to a sector that the image holds if it may.
fn every_link(judge: &mut Judge, c: &mut Chooser) {
    judge.about = "every link of G64 and NIB".to_string();
    for to in every_address() {
        let mut made = disk(c, 35);
        made.link((18, 0), to);
        let mut held = vec![(18, 0), (18, 1)];
        if valid(to, 35) {
            made.link(to, (0, to.1));
            held.push(to);
        }
        let mut image = G64Image::new(84, 7928);
        let mut file = vec![0; 256];
        file[..14].copy_from_slice(b"MNIB-1541-RAW\x01");
        for track in [18, to.0].into_iter().take(if valid(to, 35) && to.0 != 18 { 2 } else { 1 }) {
            let list: Vec<Address> = held.iter().copied().filter(|&(t, _)| t == track).collect();
            let ring = ring(c, &made, &list);
            image.add(track, &ring);
            file[16 + 2 * image.entries.len() - 2] = 2 * track;
            file.extend(repeated(&ring));
        }
        judge.clear(&mut image.bytes, G64);
        if c.below(4) == 0 {
            judge.clear(&mut file, NIB);
        }
    }
}

// All 35 tracks as they are built, of a good disk: dear, so few of them.
fn full_g64(c: &mut Chooser) -> Vec<u8> {
    let made = disk(c, 35);
    let mut image = G64Image::new(84, 7928);
    for track in 1..=35 {
        let payloads: Vec<[u8; 256]> = (0..gcr::sectors_per_track(track)).map(|s| made.payload((track, s))).collect();
        image.add(track, &gcr::build_track(track, &payloads, c.byte(), c.byte()));
    }
    image.bytes
}

pub fn all(judge: &mut Judge, c: &mut Chooser, size: u64) {
    every_link(judge, c);
    judge.about = "G64 images".to_string();
    for k in 0..2_500 * size {
        let mut image = if k % 1_000 == 0 { full_g64(c) } else { g64(c) };
        let again = judge.clear(&mut image, G64) && c.below(8) == 0;
        if again {
            judge.clear(&mut image, G64);
        }
    }
    judge.about = "NIB images".to_string();
    for _ in 0..250 * size {
        let mut image = nib(c);
        let again = judge.clear(&mut image, NIB) && c.below(8) == 0;
        if again {
            judge.clear(&mut image, NIB);
        }
    }
}
