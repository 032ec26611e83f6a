// Statuses of missing sectors: which header decides, and which decides nothing.
use crate::cases::{Buffer, Cases, Ring};
use crate::cases_slips::gaps;
use crate::fdd1541::gcr;

const TRACK: u8 = 31;
// As the original lays a sector out, the bits of a sync and of the gap behind a header, and the bytes of a slot.
const SYNC: u64 = 40;
const GAP: u64 = 72;
const SLOT: u32 = 360;

// A header where data is sought is not visited, but where the scan begins behind the one before it.
fn header_for_data(c: &mut Cases) {
    c.heading("status: a header met as data is not visited");
    let ring = gaps(c, 400);
    let mut bit = 0;
    for sector in [0, 1] {
        c.ones(ring, bit, SYNC);
        c.true_header(ring, bit + SYNC, TRACK, sector);
        bit += SYNC + 80 + GAP;
    }
    c.ones(ring, bit, SYNC);
    c.new_block(7, [0, 0]);
    c.block(ring, bit + SYNC);
    for start in [0, 130, 191, 192, 232, 233, ring.bits() - 1] {
        c.read(ring, TRACK, start);
    }
}

#[derive(Clone, Copy)]
enum Piece {
    FalseHeader,
    IllegalHeader,
    OtherTrack,
    NoData,
    IllegalData,
    OtherMarker,
    FalseData,
    Good,
}

const PIECES: [Piece; 8] = [
    Piece::FalseHeader,
    Piece::IllegalHeader,
    Piece::OtherTrack,
    Piece::NoData,
    Piece::IllegalData,
    Piece::OtherMarker,
    Piece::FalseData,
    Piece::Good,
];

// A ring of one slot: a sync and a header of a sector, and behind it what its kind has.
fn slot(c: &mut Cases, at: u32, sector: u8, piece: Piece) -> Ring {
    let ring = Ring::new(at, SLOT);
    let (header, data) = (SYNC, SYNC + 80 + GAP + SYNC);
    c.store(Buffer::Target, at, SLOT, 0x55);
    c.ones(ring, 0, SYNC);
    match piece {
        Piece::FalseHeader => c.header(ring, header, &[8, !(sector ^ TRACK), sector, TRACK, 0, 0, 15, 15]),
        Piece::OtherTrack => c.true_header(ring, header, TRACK + 1, sector),
        _ => c.true_header(ring, header, TRACK, sector),
    }
    if !matches!(piece, Piece::NoData) {
        c.ones(ring, data - SYNC, SYNC);
        c.new_block(if matches!(piece, Piece::OtherMarker) { 0 } else { 7 }, [0, 0]);
        if matches!(piece, Piece::FalseData) {
            c.change_block_sum();
        }
        c.block(ring, data);
    }
    match piece {
        Piece::IllegalHeader => c.zeros(ring, header + 70, 5),
        Piece::IllegalData => c.zeros(ring, data + 2000, 5),
        _ => {}
    }
    ring
}

// Each kind of header of a sector before each, and the other way round by the start bit.
fn two_headers(c: &mut Cases) {
    c.heading("status: two headers of one sector");
    let ring = Ring::new(0, 2 * SLOT);
    let slots: Vec<Ring> = (1..).zip(PIECES).map(|(k, piece)| slot(c, 4 * k * SLOT, 5, piece)).collect();
    for first in &slots {
        c.copy(0, SLOT, first.at);
        for second in &slots {
            c.copy(SLOT, SLOT, second.at);
            c.read(ring, TRACK, 0);
            c.read(ring, TRACK, u64::from(8 * SLOT));
        }
    }
}

// The sector of a header is any byte: at or above the track's count it is none of the track's.
fn sector_numbers(c: &mut Cases) {
    c.heading("status: headers of sectors that the track has not");
    for sector in [0, 16, 17, 200, 255] {
        for kind in [Piece::FalseHeader, Piece::NoData, Piece::FalseData, Piece::Good] {
            let ring = slot(c, 0, sector, kind);
            c.read(ring, TRACK, 0);
        }
    }
}

// With no sync end at all, every sector has 3.
fn short_rings(c: &mut Cases) {
    c.heading("status: rings with a sync end, and with none");
    for bytes in [&[0xFF][..], &[0xFF, 0x80], &[0xFF, 0xC0], &[0x7F, 0xE0], &[0x55], &[0x00]] {
        c.put(Buffer::Target, 0, bytes);
        let ring = Ring::new(0, bytes.len() as u32);
        for start in [0, 1, 2, ring.bits() - 1, u64::MAX] {
            c.read(ring, TRACK, start);
        }
    }
}

// A track of zero payloads with these codes, ids 41 42, 17 sectors.
fn coded(c: &mut Cases, codes: &[u8]) -> Ring {
    let room = gcr::capacity(TRACK) as u32;
    c.codes(codes);
    c.row('T', &[0, room, u32::from_be_bytes([0, TRACK, 0x41, 0x42]), 0, 0, codes.len() as u32]);
    Ring::new(0, room)
}

// Code 3 reads 3 where every sector has it.
fn codes(c: &mut Cases) {
    c.heading("status: one code for all sectors, or for all but one");
    for code in [0, 1, 2, 3, 4, 5, 6, 9, 11, 255] {
        for other in [code, 1] {
            let mut codes = [code; 17];
            codes[8] = other;
            let ring = coded(c, &codes);
            c.read(ring, TRACK, 0);
            let start = c.choose.next();
            c.read(ring, TRACK, start);
        }
    }
}

// One bit of sector 1's header makes it a false one of sector 0, which has none of its own.
fn another_sectors_header(c: &mut Cases) {
    c.heading("status: a damaged header counts for another sector");
    let ring = coded(c, &[2]);
    c.read(ring, TRACK, 0);
    c.zeros(ring, 3013, 1);
    for start in [0, 2944, 3013, ring.bits() - 1] {
        c.read(ring, TRACK, start);
    }
}

// Behind the 768 bits of the data search a block counts for nothing.
fn far_data(c: &mut Cases) {
    c.heading("status: how far off a false block may be");
    c.new_block(7, [0, 0]);
    c.change_block_sum();
    for gap in 756..=759 {
        let ring = gaps(c, 500);
        c.sector(ring, 100, TRACK, 2, 10, gap);
        c.read(ring, TRACK, 0);
    }
}

pub fn all(c: &mut Cases) {
    header_for_data(c);
    two_headers(c);
    sector_numbers(c);
    short_rings(c);
    codes(c);
    another_sectors_header(c);
    far_data(c);
}
