// The status of each sector of a track, worded as the rule is, over the original's own pieces: its sync search, its decoder
// of the code, its reader. The original has no statuses: this is the model to which those of the library are held.
use crate::fdd1541::gcr;

// A header of the track: legal symbols, marker 08, the track's number; its checksum true or false, its sector any byte.
// A block is sought behind a true one of a sector that the track has.
struct Header {
    sector: u8,
    is_true: bool,
    block: Option<Block>,
}

// What stands where data is sought: perhaps another header; or legal symbols and marker 07, with a true or a false checksum.
struct Block {
    place: usize,
    another_header: bool,
    is_true: Option<bool>,
}

// Do a checksum and what it was made of cancel out?
fn cancels(bytes: &[u8]) -> bool {
    bytes.iter().fold(0, |sum, byte| sum ^ byte) == 0
}

// The data search begins 80 bits behind the header's place and covers 768 bits.
fn block_behind(ring: &[u8], header: usize) -> Option<Block> {
    let place = gcr::sync_end(ring, header + 80, 768)?;
    let another_header = gcr::read_code(ring, place, 4).is_some_and(|group| group[0] == 0x08);
    let bytes = gcr::read_code(ring, place, 260).filter(|bytes| bytes[0] == 0x07);
    Some(Block { place, another_header, is_true: bytes.map(|bytes| cancels(&bytes[1..258])) })
}

fn header_at(ring: &[u8], track: u8, place: usize) -> Option<Header> {
    let bytes = gcr::read_code(ring, place, 8).filter(|bytes| bytes[0] == 0x08 && bytes[3] == track)?;
    let (sector, is_true) = (bytes[2], cancels(&bytes[1..6]));
    let leads = is_true && sector < gcr::sectors_per_track(track);
    Some(Header { sector, is_true, block: if leads { block_behind(ring, place) } else { None } })
}

impl Header {
    // The sector and the data place, where data came with it.
    fn record(&self) -> Option<(u8, u64)> {
        self.block.as_ref().filter(|block| block.is_true == Some(true)).map(|block| (self.sector, block.place as u64))
    }
}

// Where the scan goes on from a sync end.
fn next(place: usize, header: Option<&Header>) -> usize {
    match header.and_then(|h| h.block.as_ref()) {
        Some(block) if block.another_header => block.place + 1,
        Some(block) if block.is_true == Some(true) => block.place + 2600,
        _ => place + 1,
    }
}

// The original's scan: for each sync end that it visits, the header there.
fn visits(ring: &[u8], track: u8, start: u64) -> Vec<Option<Header>> {
    let bits = 8 * ring.len();
    let mut bit = start as usize % bits;
    let end = bit + bits;
    let mut met = Vec::new();
    while bit < end {
        let Some(place) = gcr::sync_end(ring, bit, end + 16 - bit) else { break };
        let header = header_at(ring, track, place);
        bit = next(place, header.as_ref());
        met.push(header);
    }
    met
}

fn status(sector: u8, is_given: bool, met: &[Option<Header>]) -> u8 {
    let headers = || met.iter().flatten().filter(|h| h.sector == sector);
    if met.is_empty() {
        return 3;
    }
    if is_given {
        return 1;
    }
    match headers().find(|h| h.is_true) {
        Some(Header { block: Some(Block { is_true: Some(false), .. }), .. }) => 5,
        Some(_) => 4,
        None if headers().next().is_some() => 9,
        None => 2,
    }
}

// `given` is what the original's reader hands out for each sector. That the visits are those of the original's scan shows in
// its records: the same sectors and data places, in the same order.
pub fn of_track(ring: &[u8], track: u8, start: u64, given: &[Option<[u8; 256]>], records: &[gcr::Record]) -> Vec<u8> {
    let met = visits(ring, track, start);
    let records = records.iter().map(|r| (r.sector, r.place));
    assert!(records.eq(met.iter().flatten().filter_map(Header::record)), "track {track}, start {start}: another scan");
    (0..).zip(given).map(|(sector, payload)| status(sector, payload.is_some(), &met)).collect()
}
