//! A track is built, read, damaged and read again, and a NIB file is made of it.
mod fielbmaru;

use fielbmaru::{Refusal, Status, NIB_HEAD, WINDOW};

const TRACK: u8 = 18;
const SECTORS: usize = fielbmaru::sectors(TRACK);

/// The missing sectors of a ring, and why they are missing.
fn missing(ring: &[u8]) -> Result<Vec<(usize, Status)>, Refusal> {
    let (mut payloads, mut statuses) = ([0; 256 * SECTORS], [Status::NoSync; SECTORS]);
    let (found, bad) = fielbmaru::decode_track(ring, TRACK, 0, &mut payloads, &mut statuses)?;
    let missing: Vec<_> = statuses.into_iter().enumerate().filter(|&(_, status)| status != Status::HandedOut).collect();
    println!("{found} of {SECTORS} sectors; missing: {missing:?}");
    if let Some(bad) = bad {
        println!("first bad symbol: {} ({:?}), at bit {}", bad.symbol, bad.block, bad.bit);
    }
    Ok(missing)
}

fn main() -> Result<(), Refusal> {
    let payloads: Vec<u8> = (0..256 * SECTORS).map(|i| (i / 256 + 7 * i) as u8).collect();
    let mut out = [0; fielbmaru::track_bytes(TRACK)];
    let ring = fielbmaru::build_track(TRACK, &payloads, &[], 0x41, 0x30, &mut out)?;
    missing(ring)?;

    fielbmaru::replace_unique(ring, TRACK, 10, &[0xA5; 256])?;
    println!("sector 10 replaced, first byte {:02X}", fielbmaru::read_unique(ring, TRACK, 10)?[0]);

    let mut file = vec![0; NIB_HEAD + WINDOW];
    let mut lengths = [0; 35];
    lengths[34] = ring.len() as u64;
    let size = fielbmaru::encode_nib(&lengths, &[2; 35], ring, &mut file)?;
    let slot = fielbmaru::nib_slot(&file, 34)?.expect("slot 34 is in the file");
    println!("a NIB file of {size} bytes, whose ring has {} bytes; the same: {}", slot.ring.len(), slot.ring == &*ring);

    ring[1000..1400].fill(0);
    for (sector, status) in missing(ring)? {
        match fielbmaru::read_unique(ring, TRACK, sector as u8) {
            Ok(_) => println!("sector {sector} reads"),
            Err(refusal) => println!("sector {sector}: {refusal}; {status}"),
        }
    }
    Ok(())
}
