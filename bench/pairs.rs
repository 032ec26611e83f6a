// What is timed: the same question to the original and to the library, on the same input.
use crate::fdd1541::{d64, g64, gcr, nib, reclaim};
use crate::inputs::{self, TRACKS};
use crate::port;
use crate::timing::{now, Case, Timed};
use std::hint::black_box;

fn timed(mut call: impl FnMut() + 'static) -> Timed {
    Box::new(move |calls| {
        let start = now();
        for _ in 0..calls {
            call();
        }
        now() - start
    })
}

fn case(name: String, rust: impl FnMut() + 'static, port: impl FnMut() + 'static) -> Case {
    Case { name, rust: timed(rust), port: timed(port) }
}

pub fn build(disk: &[u8], track: u8) -> Case {
    let payloads = inputs::payloads(disk, track);
    let sectors = inputs::sectors(&payloads);
    let mut out = vec![0; gcr::capacity(track)];
    assert_eq!(port::build([track, 1, 2], &payloads, &[], &mut out), 0);
    assert!(out == gcr::build_track_with_errors(track, &sectors, &[], 1, 2));
    case(
        format!("build track {track}"),
        move || {
            black_box(gcr::build_track_with_errors(track, black_box(&sectors), &[], 1, 2));
        },
        move || {
            black_box(port::build([track, 1, 2], black_box(&payloads), &[], &mut out));
        },
    )
}

// The original writes one G64 alone, that of its blank disk, which it makes first; its filling is 55, the library's 0.
pub fn master() -> Case {
    let (disk, theirs) = (d64::create_formatted(), g64::create_formatted());
    let (mut out, mut written) = (vec![0; theirs.len()], 0);
    assert_eq!(port::master(&disk, &mut out, &mut written), 0);
    assert!(out.iter().zip(&theirs).all(|(ours, theirs)| ours == theirs || [*ours, *theirs] == [0, 0x55]));
    case(
        format!("write a master of {TRACKS} tracks"),
        move || {
            black_box(g64::create_formatted());
        },
        move || {
            black_box(port::master(black_box(&disk), &mut out, &mut written));
        },
    )
}

// The tracks of that disk alone, each into a room of its own.
pub fn build_all() -> Case {
    let disk = d64::create_formatted();
    let tracks: Vec<Vec<u8>> = (1..=TRACKS).map(|track| inputs::payloads(&disk, track)).collect();
    let lists: Vec<Vec<[u8; 256]>> = tracks.iter().map(|payloads| inputs::sectors(payloads)).collect();
    let mut rooms: Vec<Vec<u8>> = (1..=TRACKS).map(|track| vec![0; gcr::capacity(track)]).collect();
    for (((track, payloads), sectors), out) in (1..).zip(&tracks).zip(&lists).zip(&mut rooms) {
        assert_eq!(port::build([track, 0x42, 0x42], payloads, &[], out), 0);
        assert!(*out == gcr::build_track(track, sectors, 0x42, 0x42));
    }
    case(
        format!("build its {TRACKS} tracks"),
        move || {
            for (track, sectors) in (1..).zip(&lists) {
                black_box(gcr::build_track(track, black_box(sectors), 0x42, 0x42));
            }
        },
        move || {
            for ((track, payloads), out) in (1..).zip(&tracks).zip(&mut rooms) {
                black_box(port::build([track, 0x42, 0x42], black_box(payloads), &[], out));
            }
        },
    )
}

pub fn scan(name: String, ring: Vec<u8>, track: u8) -> Case {
    let (mut rows, mut bytes, mut told) = (vec![0; 390], vec![0; 49_920], [0; 4]);
    assert_eq!(port::scan(&ring, track, 0, &mut rows, &mut bytes, told.each_mut()), 0);
    assert_eq!(told[0] as usize, gcr::scanned(&ring, track, 0));
    let same = ring.clone();
    case(
        name,
        move || {
            black_box(gcr::scanned(black_box(&ring), track, 0));
        },
        move || {
            black_box(port::scan(black_box(&same), track, 0, &mut rows, &mut bytes, told.each_mut()));
        },
    )
}

pub fn read(disk: &[u8], track: u8) -> Case {
    let ring = inputs::ring(disk, track);
    let same = ring.clone();
    let (mut bytes, mut statuses, mut told) = (vec![0; 21 * 256], vec![0; 21], [0; 4]);
    let sectors = gcr::decode_track_from(&ring, track, 0).expect("a ring that is not empty");
    assert_eq!(port::read(&ring, track, 0, &mut bytes, &mut statuses, told.each_mut()), 0);
    assert!(sectors.iter().zip(bytes.chunks(256)).all(|(s, payload)| s.is_some_and(|s| s == payload)));
    case(
        format!("read track {track}"),
        move || {
            black_box(gcr::decode_track_from(black_box(&ring), track, 0));
        },
        move || {
            black_box(port::read(black_box(&same), track, 0, &mut bytes, &mut statuses, told.each_mut()));
        },
    )
}

pub fn sector(name: &str, ring: Vec<u8>, track: u8, sector: u8, unique: bool) -> Case {
    let read = if unique { gcr::read_unique } else { gcr::read_consistent };
    let mut out = [0; 256];
    assert_eq!(port::sector(&ring, track, sector, unique, &mut out), 0);
    assert_eq!(Some(out), read(&ring, track, sector));
    let same = ring.clone();
    case(
        format!("read one sector, {name}, track {track}"),
        move || {
            black_box(read(black_box(&ring), track, sector));
        },
        move || {
            black_box(port::sector(black_box(&same), track, sector, unique, &mut out));
        },
    )
}

pub fn replace(name: &str, ring: Vec<u8>, track: u8, sector: u8, unique: bool) -> Case {
    let replace = if unique { gcr::replace_unique } else { gcr::replace_consistent };
    let data: [u8; 256] = inputs::random(7, 256).try_into().expect("256 bytes");
    let (mut one, mut other) = (ring.clone(), ring);
    assert!(replace(&mut one, track, sector, &data));
    assert_eq!(port::replace(&mut other, track, sector, &data, unique), 0);
    assert!(one == other);
    case(
        format!("replace one sector, {name}, track {track}"),
        move || {
            black_box(replace(black_box(&mut one), track, sector, &data));
        },
        move || {
            black_box(port::replace(black_box(&mut other), track, sector, &data, unique));
        },
    )
}

pub fn orbit(disk: &[u8], track: u8) -> Case {
    let (window, zone) = (inputs::window(&inputs::ring(disk, track)), inputs::zone(track));
    assert_eq!(port::orbit(&window, zone) as usize, nib::orbit(&window, zone).len());
    let same = window.clone();
    case(
        format!("orbit of a window, zone {zone}"),
        move || {
            black_box(nib::orbit(black_box(&window), zone));
        },
        move || {
            black_box(port::orbit(black_box(&same), zone));
        },
    )
}

// The original decodes all slots at once; the library is asked for each of the 84.
pub fn decode(disk: &[u8], tracks: u8) -> Case {
    let file = inputs::nib(disk, tracks);
    let same = file.clone();
    let (mut at, mut span, mut zone) = (0, 0, 0);
    for (slot, ring) in nib::decode_nib(&file).expect("a good file").rings.iter().enumerate() {
        assert_eq!(port::slot(&file, slot as u64, [&mut at, &mut span, &mut zone]), 0);
        assert!(file[at as usize..(at + span) as usize] == **ring);
    }
    case(
        format!("decode a NIB of {tracks} windows, all 84 slots"),
        move || {
            black_box(nib::decode_nib(black_box(&file)));
        },
        move || {
            for slot in 0..84 {
                black_box(port::slot(black_box(&same), slot, [&mut at, &mut span, &mut zone]));
            }
        },
    )
}

pub fn encode(disk: &[u8]) -> Case {
    let rings: Vec<Vec<u8>> = (0..84u8)
        .map(|slot| if slot % 2 == 0 && slot / 2 < TRACKS { inputs::ring(disk, slot / 2 + 1) } else { Vec::new() })
        .collect();
    let zones: Vec<u8> = (0..84).map(|slot| inputs::zone(slot / 2 + 1)).collect();
    let lengths: Vec<u64> = rings.iter().map(|ring| ring.len() as u64).collect();
    let (joined, mut written) = (rings.concat(), 0);
    let mut out = vec![0; 256 + 8192 * usize::from(TRACKS)];
    let same = zones.clone();
    assert_eq!(port::encode_nib(&lengths, &zones, &joined, &mut out, &mut written), 0);
    assert!(Some(out.clone()) == nib::encode_nib(&rings, &zones));
    case(
        format!("encode a NIB of {TRACKS} rings"),
        move || {
            black_box(nib::encode_nib(black_box(&rings), &zones));
        },
        move || {
            black_box(port::encode_nib(black_box(&lengths), &same, &joined, &mut out, &mut written));
        },
    )
}

// Copies are made before the clock starts, and dropped after it stops.
fn copies(image: &[u8], calls: u32) -> Vec<Vec<u8>> {
    (0..calls).map(|_| image.to_vec()).collect()
}

pub fn clear(name: &str, image: Vec<u8>, kind: u32) -> Case {
    let same = image.clone();
    let (mut free, mut changed) = (0, 0);
    let mut once = image.clone();
    assert_eq!(port::clear(&mut once, kind, &mut free, &mut changed), 0);
    let cleared = reclaim::cleared(image.clone(), kind).expect("a good image");
    assert!(once == cleared.image && (free, changed) == (cleared.free as u64, cleared.changed as u64));
    Case {
        name: format!("clear {name}, {free} sectors free, {changed} changed"),
        rust: Box::new(move |calls| {
            let (images, mut results) = (copies(&image, calls), Vec::with_capacity(calls as usize));
            let start = now();
            for image in images {
                results.push(black_box(reclaim::cleared(image, kind)));
            }
            now() - start
        }),
        port: Box::new(move |calls| {
            let mut images = copies(&same, calls);
            let start = now();
            for image in &mut images {
                black_box(port::clear(image, kind, &mut free, &mut changed));
            }
            now() - start
        }),
    }
}
