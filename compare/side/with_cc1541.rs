// The G64 of cc1541 and ours of the same D64: the same sectors, read by the original's G64 code and by the library.
//   with_cc1541 SEED DISKS
mod asked;
mod craft;
mod draw;
pub mod fdd1541;
mod port;
mod statuses;
mod symbols;
mod whole;

use draw::Chooser;
use fdd1541::{gcr, media, reclaim};
use std::collections::BTreeSet;
use std::fs;
use std::process::Command;
use whole::Disk;

const FOLDER: &str = "target/cc1541";
const TRACKS: u8 = 35;
const MASTER: usize = 684 + 7_930 * TRACKS as usize;

// A disk of any bytes, with as much of a BAM and a directory as cc1541 asks for, to which it adds a file; and its G64 of that.
fn with_file(c: &mut Chooser, k: u64) -> (Vec<u8>, Vec<u8>) {
    let [disk, file, g64] = ["disk.d64", "file.prg", "disk.g64"].map(|name| format!("{FOLDER}/{name}"));
    let mut image = craft::bytes(c, 256 * media::sectors_to(TRACKS));
    let (bam, directory) = (media::place(18, 0), media::place(18, 1));
    image[bam..bam + 4].copy_from_slice(&[18, 1, 0x41, 0]);
    image[bam + 4..bam + 144].fill(0xFF);
    image[directory..directory + 256].fill(0);
    image[directory + 1] = 0xFF;
    let long = c.within(1, 60_000) as usize;
    fs::write(&disk, &image).expect("the disk is written");
    fs::write(&file, craft::bytes(c, long)).expect("the file is written");
    let _ = fs::remove_file(&g64);
    let done = Command::new("cc1541")
        .args(["-q", "-f", &format!("file {k}"), "-w", &file, "-g", &g64, &disk])
        .status()
        .expect("cc1541 runs");
    assert!(done.success(), "cc1541 refuses disk {k}");
    let read = |name: &str| fs::read(name).expect("cc1541 writes both");
    assert!(read(&disk) != image, "cc1541 has not written the file");
    (read(&disk), read(&g64))
}

// Every sector by the library's own reader, on the rings that the original finds.
fn read_by_library(d64: &[u8], g64: &[u8]) -> usize {
    let (ranges, mut read) = (reclaim::ranges_of(g64).expect("good tables"), 0);
    for track in 1..=TRACKS {
        let (at, long) = ranges[2 * usize::from(track) - 2].expect("every track");
        for sector in 0..gcr::sectors_per_track(track) {
            let (mut out, place) = ([0; 256], media::place(track, sector));
            let number = port::sector(&g64[at..at + long], track, sector, true, &mut out);
            read += usize::from(number == 0 && out == d64[place..place + 256]);
        }
    }
    read
}

// The ids of all headers, id1 first.
fn ids(g64: &[u8]) -> BTreeSet<[u8; 2]> {
    let mut met = BTreeSet::new();
    for (at, long) in reclaim::ranges_of(g64).expect("good tables").into_iter().flatten() {
        let (ring, mut bit) = (&g64[at..at + long], 0);
        while let Some(end) = gcr::sync_end(ring, bit, 8 * long - bit) {
            match gcr::read_code(ring, end, 8).as_deref() {
                Some(&[8, _, _, _, id2, id1, ..]) => drop(met.insert([id1, id2])),
                _ => {}
            }
            bit = end + 1;
            if bit >= 8 * long {
                break;
            }
        }
    }
    met
}

fn main() {
    let words: Vec<u64> = std::env::args().skip(1).map(|w| w.parse().expect("a decimal number")).collect();
    let [seed, disks] = words[..] else { panic!("with_cc1541 SEED DISKS") };
    let mut c = Chooser::new(seed);
    let (mut same, mut theirs) = ([0; 4], BTreeSet::new());
    for k in 0..disks {
        let (d64, g64) = with_file(&mut c, k);
        let (mut ours, mut written) = (vec![0xAA; MASTER], 0);
        assert_eq!((port::master(&d64, &mut ours, &mut written), written as usize), (0, MASTER));
        let disk = Disk::of(&d64).expect("a D64 of 35 tracks");
        for (of, image) in [&g64, &ours].into_iter().enumerate() {
            match whole::read_back(&disk, image) {
                Ok(read) => same[2 * of] += read,
                Err(fault) => println!("disk {k}, {}: {fault}", ["cc1541's", "ours"][of]),
            }
            same[2 * of + 1] += read_by_library(&d64, image);
        }
        let bam = media::place(18, 0);
        assert_eq!(ids(&ours), BTreeSet::from([[d64[bam + 0xA2], d64[bam + 0xA3]]]));
        theirs.extend(ids(&g64));
        assert_eq!((g64[9], &g64[10..12]), (70, &7_692u16.to_le_bytes()[..]), "another cc1541");
    }
    let all = disks as usize * media::sectors_to(TRACKS);
    println!("{disks} disks, {all} sectors; as in the D64, by the original's reader and by the library's:");
    println!("cc1541's G64 {} and {}, the library's master {} and {}", same[0], same[1], same[2], same[3]);
    println!("ids in the headers: the library's are those of 18/0 each time, cc1541's are {theirs:02X?}");
    std::process::exit(i32::from(same != [all; 4]));
}
