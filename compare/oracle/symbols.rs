// The first bad symbol of a scan, and of a block, over the original's own pieces: its table of symbols, its sync search, its
// decoder of the code. The original does not tell it: this is the model to which the library is held. It does not stop where
// decoding stops: it goes through the whole scan, lists what was looked at, and then tries that list symbol by symbol.
use crate::fdd1541::{constants::GCR_ENCODE, gcr};

// The blocks by their numbers.
pub const HEADER: u64 = 1;
pub const DATA: u64 = 2;

// Symbols of a block that the scan looked at, from its first one on.
struct Look {
    block: u64,
    place: usize,
    symbols: usize,
}

// What the scan looked at, in order, and its records: sector and data place.
#[derive(Default)]
struct Walk {
    looks: Vec<Look>,
    records: Vec<(u8, u64)>,
}

// The sector of a true header of the track, of a sector that the track has.
fn true_header(ring: &[u8], track: u8, place: usize) -> Option<u8> {
    let bytes = gcr::read_code(ring, place, 8)?;
    let is_true = bytes[0] == 0x08 && bytes[3] == track && bytes[1] == bytes[2] ^ bytes[3] ^ bytes[4] ^ bytes[5];
    (is_true && bytes[2] < gcr::sectors_per_track(track)).then_some(bytes[2])
}

fn is_good_block(ring: &[u8], place: usize) -> bool {
    gcr::read_code(ring, place, 260)
        .is_some_and(|bytes| bytes[0] == 0x07 && bytes[1..257].iter().fold(bytes[257], |sum, byte| sum ^ byte) == 0)
}

impl Walk {
    fn look(&mut self, block: u64, place: usize, symbols: usize) {
        self.looks.push(Look { block, place, symbols });
    }

    // A sync end is visited; the bit where the scan goes on.
    fn visit(&mut self, ring: &[u8], track: u8, place: usize) -> usize {
        self.look(HEADER, place, 16);
        let Some(sector) = true_header(ring, track, place) else { return place + 1 };
        let Some(data) = gcr::sync_end(ring, place + 80, 768) else { return place + 1 };
        // a header's marker in the first group ends the look
        if gcr::read_code(ring, data, 4).is_some_and(|group| group[0] == 0x08) {
            self.look(DATA, data, 8);
            return data + 1;
        }
        self.look(DATA, data, 520);
        if !is_good_block(ring, data) {
            return place + 1;
        }
        self.records.push((sector, data as u64));
        data + 2600
    }
}

fn walk(ring: &[u8], track: u8, start: u64) -> Walk {
    let bits = 8 * ring.len();
    let first = (start % bits as u64) as usize;
    let mut walk = Walk::default();
    let mut bit = first;
    while bit < first + bits {
        let Some(place) = gcr::sync_end(ring, bit, first + bits + 16 - bit) else { break };
        bit = walk.visit(ring, track, place);
    }
    walk
}

// Five bits, the first the highest; they count round.
fn symbol(bytes: &[u8], bit: usize) -> u8 {
    (bit..bit + 5).fold(0, |code, i| code << 1 | gcr::bit(bytes, i))
}

// The first of so many symbols that is not in the original's table.
fn first_bad(bytes: &[u8], place: usize, symbols: usize) -> Option<usize> {
    (0..symbols).find(|k| !GCR_ENCODE.contains(&symbol(bytes, place + 5 * k)))
}

// The block, the index of the symbol in it, and the ring bit where the symbol begins; zeros where there is none. That the
// scan is the original's shows in its records: the same sectors and data places, in the same order.
pub fn of_scan(ring: &[u8], track: u8, start: u64, records: &[gcr::Record]) -> [u64; 3] {
    let walk = walk(ring, track, start);
    let same = records.iter().map(|r| (r.sector, r.place)).eq(walk.records);
    assert!(same, "track {track}, start {start}: another scan");
    let bad = walk.looks.iter().find_map(|look| {
        let k = first_bad(ring, look.place, look.symbols)?;
        Some([look.block, k as u64, ((look.place + 5 * k) % (8 * ring.len())) as u64])
    });
    bad.unwrap_or_default()
}

// The index among the symbols of a block's whole groups.
pub fn of_block(code: &[u8]) -> Option<u64> {
    first_bad(code, 0, code.len() / 5 * 8).map(|k| k as u64)
}
