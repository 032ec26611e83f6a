// The first bad symbol: the examples that were worked out by hand (known.rs has more, and what is expected).
use crate::cases::{Buffer, Cases, Ring};
use crate::fdd1541::gcr;

const TRACK: u8 = 1;
// Of slot 0, as the original lays a track out.
const DATA: u64 = 232;

// A track of one byte throughout, ids 0, with a stretch of zeros.
fn spoilt(c: &mut Cases, byte: u8, from: u64, n: u64) -> Ring {
    let (room, bytes) = (gcr::capacity(TRACK) as u32, 256 * u32::from(gcr::sectors_per_track(TRACK)));
    c.store(Buffer::Source, 0, bytes, byte);
    c.row('T', &[0, room, u32::from(TRACK) << 16, 0, bytes, 0]);
    let ring = Ring::new(0, room);
    c.zeros(ring, from, n);
    ring
}

// Scanned, read, and a sector of it read and replaced: all pass the symbol on.
fn asked(c: &mut Cases, ring: Ring, start: u64) {
    c.scan(ring, TRACK, start);
    c.read(ring, TRACK, start);
    for letter in ['u', 'c', 'U', 'K'] {
        for sector in [0, 3] {
            c.row(letter, &[ring.at, ring.n, u32::from(TRACK), sector, 0]);
        }
    }
}

pub fn all(c: &mut Cases) {
    c.heading("symbol: in a header, in data, data met as a header");
    for (from, starts) in [(100, &[0][..]), (98, &[0]), (267, &[0, 60])] {
        for &start in starts {
            let ring = spoilt(c, 0, from, 5);
            asked(c, ring, start);
        }
    }
    c.heading("symbol: a bit of a sync lost, 2,580 bits before it");
    let ring = spoilt(c, 0xFF, DATA - 6, 1);
    asked(c, ring, 0);
    c.heading("symbol: its bit counted round");
    c.put(Buffer::Target, 0, &[0xFF, 0xFE]);
    for start in [0, 1, 15, 16] {
        c.scan(Ring::new(0, 2), TRACK, start);
        c.read(Ring::new(0, 2), TRACK, start);
    }
    c.heading("symbol: none on a track without damage");
    let ring = spoilt(c, 0, 0, 0);
    for start in [0, 60, 2000, ring.bits() - 1] {
        asked(c, ring, start);
    }
}
