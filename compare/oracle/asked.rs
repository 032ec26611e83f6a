// What the original answers, as docs/RULES.md words it. The original has no refusal numbers: each number below is the
// document's, chosen by a plain test, or by which of the original's own steps gave nothing.
use crate::fdd1541::{gcr, nib, reclaim};
use crate::statuses;
use crate::symbols;

pub const MAX_RING: usize = 65_535;
pub const SLOTS: usize = 84;
pub const WINDOW: usize = 8_192;
pub const HEADER: usize = 256;
// A scan is lent two numbers and 256 bytes for each of 195 records.
pub const RECORDS: usize = 195;
pub const SCAN_NUMBERS: usize = 2 * RECORDS;
pub const SCAN_BYTES: usize = 256 * RECORDS;

pub type Answer<T> = Result<T, u8>;

// The original answers an empty ring with nothing (1), and takes one of any length (2 is the document's alone).
fn tested(ring: &[u8]) -> Answer<()> {
    match ring.len() {
        0 => Err(1),
        n if n > MAX_RING => Err(2),
        _ => Ok(()),
    }
}

pub fn build(track: u8, payloads: &[u8], codes: &[u8], id1: u8, id2: u8, room: usize) -> Answer<Vec<u8>> {
    if payloads.len() % 256 != 0 {
        return Err(10);
    }
    let sectors: Vec<[u8; 256]> = payloads.chunks(256).map(|c| c.try_into().expect("256 bytes")).collect();
    let built = gcr::build_track_with_errors(track, &sectors, codes, id1, id2);
    if room < built.len() {
        return Err(7);
    }
    Ok(built)
}

// A scan's records, and its first bad symbol, which is the document's (symbols.rs): block, symbol, ring bit.
pub struct Scan {
    pub records: Vec<gcr::Record>,
    pub bad: [u64; 3],
}

pub fn scan(ring: &[u8], track: u8, start: u64, room: bool) -> Answer<Scan> {
    if !room {
        return Err(7);
    }
    tested(ring)?;
    let records = gcr::records(ring, track, start);
    if records.len() > RECORDS {
        return Err(9);
    }
    let bad = symbols::of_scan(ring, track, start, &records);
    Ok(Scan { records, bad })
}

// A track as the original reads it; and the document's: the status of each sector (statuses.rs), the scan's first bad symbol.
pub struct Track {
    pub sectors: Vec<Option<[u8; 256]>>,
    pub statuses: Vec<u8>,
    pub bad: [u64; 3],
}

impl Track {
    pub fn found(&self) -> usize {
        self.sectors.iter().flatten().count()
    }
}

pub fn read(ring: &[u8], track: u8, start: u64, room: bool) -> Answer<Track> {
    if !room {
        return Err(7);
    }
    tested(ring)?;
    let sectors = gcr::decode_track_from(ring, track, start as usize).expect("a ring that is not empty");
    let records = gcr::records(ring, track, start);
    let statuses = statuses::of_track(ring, track, start, &sectors, &records);
    let bad = symbols::of_scan(ring, track, start, &records);
    Ok(Track { sectors, statuses, bad })
}

pub fn encode_block(bytes: &[u8], room: usize) -> Answer<Vec<u8>> {
    let code = gcr::encode_block(bytes);
    if room < code.len() {
        return Err(7);
    }
    Ok(code)
}

// The original decodes as many bytes as it is asked for, and none is too few: docs/RULES.md takes all whole groups. Refused 13,
// the index is the model's, which must find one where the original refuses, and only there.
pub fn decode_block(code: &[u8], room: usize) -> Answer<Vec<u8>> {
    let n = code.len() / 5 * 4;
    if room < n {
        return Err(7);
    }
    let bytes = if n == 0 { Some(Vec::new()) } else { gcr::decode_block(code, n) };
    assert_eq!(bytes.is_none(), symbols::of_block(code).is_some());
    bytes.ok_or(13)
}

// Why a rule gives no sector: 11 where no record has that number, else 12.
fn unread(ring: &[u8], track: u8, sector: u8) -> u8 {
    if gcr::records(ring, track, 0).iter().any(|r| r.sector == sector) {
        12
    } else {
        11
    }
}

pub fn sector(ring: &[u8], track: u8, sector: u8, unique: bool) -> Answer<[u8; 256]> {
    tested(ring)?;
    let read = if unique { gcr::read_unique } else { gcr::read_consistent };
    read(ring, track, sector).ok_or_else(|| unread(ring, track, sector))
}

pub fn replace(ring: &mut [u8], track: u8, sector: u8, bytes: &[u8; 256], unique: bool) -> Answer<()> {
    tested(ring)?;
    let replace = if unique { gcr::replace_unique } else { gcr::replace_consistent };
    if replace(ring, track, sector, bytes) {
        Ok(())
    } else {
        Err(unread(ring, track, sector))
    }
}

pub fn orbit(window: &[u8], zone: u8) -> Vec<u8> {
    nib::orbit(window, zone)
}

// 3 where the file is under 256 bytes or has another signature, 4 for everything else the original refuses.
pub fn nib(file: &[u8]) -> Answer<nib::NibMedium> {
    nib::decode_nib(file).ok_or(if file.len() < HEADER || !file.starts_with(b"MNIB-1541-RAW") { 3 } else { 4 })
}

// One slot of such a file, its ring and zone; a slot above 83 refuses 4, which the original has no way to ask for.
pub fn slot(medium: &Answer<nib::NibMedium>, slot: u64) -> Answer<(&[u8], u8)> {
    match medium {
        Err(number) => Err(*number),
        Ok(_) if slot >= SLOTS as u64 => Err(4),
        Ok(medium) => Ok((&medium.rings[slot as usize], medium.zones[slot as usize])),
    }
}

// docs/RULES.md looks at 84 lengths and zones; its order of refusals here is 10, 2, 8, 7.
pub fn encode_nib(lengths: &[u64], zones: &[u8], joined: &[u8], room: usize) -> Answer<Vec<u8>> {
    let lengths = &lengths[..lengths.len().min(SLOTS)];
    let zones = &zones[..zones.len().min(SLOTS)];
    if lengths.iter().map(|&n| u128::from(n)).sum::<u128>() != joined.len() as u128 {
        return Err(10);
    }
    if lengths.iter().any(|&n| n > MAX_RING as u64) {
        return Err(2);
    }
    let mut rest = joined;
    let mut rings = Vec::new();
    for &n in lengths {
        let (ring, behind) = rest.split_at(n as usize);
        rings.push(ring.to_vec());
        rest = behind;
    }
    let file = nib::encode_nib(&rings, zones).ok_or(8)?;
    assert_eq!(file.len(), HEADER + WINDOW * rings.iter().filter(|ring| !ring.is_empty()).count());
    if room < file.len() {
        return Err(7);
    }
    Ok(file)
}

// The kinds of image: 0 D64, 1 G64, 2 NIB.
pub fn clear(image: &[u8], kind: u32) -> Answer<reclaim::Cleared> {
    let answer = match kind {
        0 => reclaim::clear_d64(image),
        1 => reclaim::clear_g64(image),
        _ => reclaim::clear_nib(image),
    };
    match answer {
        reclaim::Answer::Cleared(cleared) => Ok(cleared),
        reclaim::Answer::Refused(number) => Err(number),
    }
}
