//! Fielbmaru: Commodore 1541 disk images, for Rust.
//!
//! Safe functions over the exported functions of `libfielbmaru.a`, each of which is proved against a definition, for every input.
//! What is added here is little: lengths and pointers are those of slices, and a refusal is returned as the error of a `Result`.
//! Refused, nothing that was lent has changed.
//!
//! Build and link with no cargo (x86-64 Linux):
//!
//! ```text
//! bin/library
//! rustc --edition 2021 -L native=target/staticlib mine.rs          (mine.rs says: mod fielbmaru;)
//! ```
//!
//! A ring is one circular track, 1 to 65,535 bytes as they pass under the head, high bit first. A payload is the 256 bytes of a
//! sector. A start bit is any number; it is taken modulo the ring's bits.
//!
//! ```
//! use fielbmaru::Refusal;
//!
//! let hello = [0x48; 256];
//! let mut out = [0; fielbmaru::track_bytes(18)];
//! let ring = fielbmaru::build_track(18, &hello, &[], 0x41, 0x30, &mut out).unwrap();
//! assert_eq!(fielbmaru::read_unique(ring, 18, 0), Ok(hello));
//! ring[60..68].fill(0);
//! assert_eq!(fielbmaru::read_unique(ring, 18, 0), Err(Refusal::NoRecord));
//! ```

use std::fmt;

/// Why the library did nothing. The numbers are those of the library (tests/refusals holds them to its other lists).
#[derive(Clone, Copy, Debug, PartialEq, Eq, Hash)]
pub enum Refusal {
    /// The ring has no byte.
    RingEmpty = 1,
    /// The ring has more than 65,535 bytes.
    RingTooLong = 2,
    /// D64 size, G64 or NIB length or signature is wrong.
    WrongImage = 3,
    /// G64 counts or entries, NIB catalogue or total length are wrong; a slot above 83.
    WrongEntries = 4,
    /// Track 18 is missing, or 18/0 is not readable.
    NoDirectory = 5,
    /// A directory link is out of range, repeated, or unreadable.
    WrongLink = 6,
    /// A lent output is shorter than needed.
    NoRoom = 7,
    /// NIB encoding with no ring.
    NoRing = 8,
    // 9 is not used.
    /// Payload bytes not a multiple of 256; ring bytes not the sum of the ring lengths.
    WrongSum = 10,
    /// No valid record of that sector.
    NoRecord = 11,
    /// Several records (unique rule), or differing ones (consistent rule).
    Ambiguous = 12,
    /// A five-bit symbol outside the table; [`decode_block`] alone refuses by it, and says which symbol it is.
    IllegalSymbol = 13,
    /// A number that this file does not know: the library is newer than it.
    Unknown = 255,
}

const REFUSALS: [Refusal; 12] = [
    Refusal::RingEmpty,
    Refusal::RingTooLong,
    Refusal::WrongImage,
    Refusal::WrongEntries,
    Refusal::NoDirectory,
    Refusal::WrongLink,
    Refusal::NoRoom,
    Refusal::NoRing,
    Refusal::WrongSum,
    Refusal::NoRecord,
    Refusal::Ambiguous,
    Refusal::IllegalSymbol,
];

impl fmt::Display for Refusal {
    fn fmt(&self, f: &mut fmt::Formatter<'_>) -> fmt::Result {
        write!(f, "refused {} ({:?})", *self as u8, self)
    }
}

impl std::error::Error for Refusal {}

impl Refusal {
    /// The refusal of this number; `Unknown` where there is none.
    pub fn of(number: u64) -> Refusal {
        let known = REFUSALS.into_iter().find(|refusal| *refusal as u64 == number);
        known.unwrap_or(Refusal::Unknown)
    }
}

/// 0 is done; every other number is that of a refusal.
fn done(number: u64) -> Result<(), Refusal> {
    match number {
        0 => Ok(()),
        _ => Err(Refusal::of(number)),
    }
}

/// The numbers that a scan needs for its rows, and the bytes for its payloads: 195 records, whatever is found.
pub const SCAN_ROWS: usize = 390;
pub const SCAN_PAYLOADS: usize = 49920;

/// The records that [`scan_records`] needs room for, whatever is found.
pub const SCAN_RECORDS: usize = 195;

/// The bytes of a NIB window, the bytes before the first one, and the half-track slots; slot 2 * (t - 1) is track t.
pub const WINDOW: usize = 8192;
pub const NIB_HEAD: usize = 256;
pub const SLOTS: usize = 84;

/// The bytes of the longest master that [`d64_to_g64`] writes: [`g64_bytes`] of 42 tracks.
pub const G64_MOST: usize = g64_bytes(42);

/// What [`decode_track`] says of a sector: it was handed out, or why it is missing. The numbers are the library's, which writes no others.
#[derive(Clone, Copy, Debug, PartialEq, Eq, Hash)]
#[repr(u8)]
pub enum Status {
    /// It was handed out.
    HandedOut = 1,
    /// No header of the sector was met.
    NoHeader = 2,
    /// No sync was met on the whole ring; all sectors have this status then.
    NoSync = 3,
    /// A true header, and no data block behind it: no sync, an illegal symbol, another marker or another header.
    NoData = 4,
    /// A true header, and a data block whose checksum is false.
    FalseData = 5,
    /// No true header, but one with this sector's number whose checksum is false.
    FalseHeader = 9,
}

impl fmt::Display for Status {
    fn fmt(&self, f: &mut fmt::Formatter<'_>) -> fmt::Result {
        f.write_str(match self {
            Status::HandedOut => "handed out",
            Status::NoHeader => "no header",
            Status::NoSync => "no sync",
            Status::NoData => "no data block",
            Status::FalseData => "data checksum",
            Status::FalseHeader => "header checksum",
        })
    }
}

/// The bytes of a built track. (A published number, for sizing buffers; check.rs holds it against the library.)
pub const fn track_bytes(track: u8) -> usize {
    match track {
        1..=17 => 7692,
        18..=24 => 7142,
        25..=30 => 6666,
        _ => 6250,
    }
}

/// The sectors of a track. (As [`track_bytes`].)
pub const fn sectors(track: u8) -> usize {
    match track {
        1..=17 => 21,
        18..=24 => 19,
        25..=30 => 18,
        _ => 17,
    }
}

/// The bytes of a master of so many tracks, 35 to 42.
pub const fn g64_bytes(tracks: u8) -> usize {
    684 + 7930 * tracks as usize
}

/// The bytes of the code of a block of so many bytes: five for each group of four, the last one filled up with zeros.
pub const fn code_bytes(bytes: usize) -> usize {
    5 * ((bytes + 3) / 4)
}

/// The bytes that a code of so many bytes stands for: four for each whole group of five.
pub const fn block_bytes(code: usize) -> usize {
    4 * (code / 5)
}

/// Codes a block of any length at the front of `out`, and hands back that part, [`code_bytes`]; what follows it is kept.
///
/// Refused: `NoRoom`.
pub fn encode_block<'a>(bytes: &[u8], out: &'a mut [u8]) -> Result<&'a mut [u8], Refusal> {
    done(unsafe { linked::fielbmaru_encode_block(bytes.as_ptr(), bytes.len(), out.as_mut_ptr(), out.len()) })?;
    Ok(&mut out[..code_bytes(bytes.len())])
}

/// Why a block was not decoded.
#[derive(Clone, Copy, Debug, PartialEq, Eq, Hash)]
pub enum NotDecoded {
    /// The first symbol outside the table, counted from 0 among all of the block's: it is refusal 13, and stands in bits 5k to 5k + 4.
    IllegalSymbol(usize),
    /// Any other refusal.
    Refused(Refusal),
}

impl fmt::Display for NotDecoded {
    fn fmt(&self, f: &mut fmt::Formatter<'_>) -> fmt::Result {
        match self {
            NotDecoded::IllegalSymbol(k) => write!(f, "{} at symbol {k}", Refusal::IllegalSymbol),
            NotDecoded::Refused(refusal) => refusal.fmt(f),
        }
    }
}

impl std::error::Error for NotDecoded {}

/// The refusal alone.
impl From<NotDecoded> for Refusal {
    fn from(why: NotDecoded) -> Refusal {
        match why {
            NotDecoded::IllegalSymbol(_) => Refusal::IllegalSymbol,
            NotDecoded::Refused(refusal) => refusal,
        }
    }
}

/// Decodes the whole groups of a code at the front of `out`, and hands back that part, [`block_bytes`]; what follows it is kept. Up to
/// four bytes after the groups are not looked at.
///
/// Refused: `NoRoom`, and by the index of the first symbol outside the table.
pub fn decode_block<'a>(code: &[u8], out: &'a mut [u8]) -> Result<&'a mut [u8], NotDecoded> {
    let mut symbol = 0;
    let number = unsafe {
        linked::fielbmaru_decode_block(code.as_ptr(), code.len(), out.as_mut_ptr(), out.len(), &mut symbol)
    };
    match done(number) {
        Ok(()) => Ok(&mut out[..block_bytes(code.len())]),
        Err(Refusal::IllegalSymbol) => Err(NotDecoded::IllegalSymbol(symbol as usize)),
        Err(refusal) => Err(NotDecoded::Refused(refusal)),
    }
}

/// Builds a track at the front of `out`, and hands back that part; what follows it is kept.
///
/// `payloads` has 256 bytes for each sector from sector 0 on, `codes` an error code for each, as in the error bytes of a D64.
/// Sectors without are zeros and have code 1, which is no error; surplus is not looked at.
///
/// Refused: `WrongSum` (payload bytes not a multiple of 256), `NoRoom` (`out` is shorter than [`track_bytes`]).
pub fn build_track<'a>(
    track: u8,
    payloads: &[u8],
    codes: &[u8],
    id1: u8,
    id2: u8,
    out: &'a mut [u8],
) -> Result<&'a mut [u8], Refusal> {
    done(unsafe {
        linked::fielbmaru_build_track(
            track,
            payloads.as_ptr(),
            payloads.len(),
            codes.as_ptr(),
            codes.len(),
            id1,
            id2,
            out.as_mut_ptr(),
            out.len(),
        )
    })?;
    Ok(&mut out[..track_bytes(track)])
}

/// The blocks that a scan looks at.
#[derive(Clone, Copy, Debug, PartialEq, Eq, Hash)]
pub enum Block {
    /// A header, of 16 symbols.
    Header,
    /// A data block, of 520.
    Data,
}

/// The first symbol outside the table that a scan met, in the order of meeting: where decoding stopped, which need not be where the
/// damage is.
#[derive(Clone, Copy, Debug, PartialEq, Eq, Hash)]
pub struct BadSymbol {
    pub block: Block,
    /// Its index among the symbols of the block.
    pub symbol: usize,
    /// The bit of the ring where it begins.
    pub bit: usize,
}

/// The three numbers of a bad symbol, lent to a scan.
#[derive(Default)]
struct Told {
    block: u64,
    symbol: u64,
    bit: u64,
}

impl Told {
    fn symbol(&self) -> Option<BadSymbol> {
        let block = match self.block {
            1 => Block::Header,
            2 => Block::Data,
            _ => return None,
        };
        Some(BadSymbol { block, symbol: self.symbol as usize, bit: self.bit as usize })
    }
}

/// Lists every sector record that one revolution from the start bit on meets, and returns how many there are, and the first bad symbol.
///
/// `rows` gets two numbers a record, its sector and the bit where its data block begins (counted on past the ring's end),
/// `payloads` 256 bytes a record. Room is needed for [`SCAN_ROWS`] and [`SCAN_PAYLOADS`].
///
/// Refused: `NoRoom`, `RingEmpty`, `RingTooLong`.
pub fn scan(
    ring: &[u8],
    track: u8,
    start_bit: u64,
    rows: &mut [u64],
    payloads: &mut [u8],
) -> Result<(usize, Option<BadSymbol>), Refusal> {
    let (mut count, mut told) = (0, Told::default());
    done(unsafe {
        linked::fielbmaru_scan(
            ring.as_ptr(),
            ring.len(),
            track,
            start_bit,
            rows.as_mut_ptr(),
            rows.len(),
            payloads.as_mut_ptr(),
            payloads.len(),
            &mut count,
            &mut told.block,
            &mut told.symbol,
            &mut told.bit,
        )
    })?;
    Ok((count as usize, told.symbol()))
}

/// A record: its sector, the bit where its data block begins, and its payload. Laid out as the header's `fielbmaru_record`.
#[repr(C)]
#[derive(Clone, Copy, Debug, PartialEq, Eq)]
pub struct Record {
    pub sector: u64,
    pub place: u64,
    pub payload: [u8; 256],
}

impl Record {
    /// A record of zeros, to make room with: `[Record::ZEROS; SCAN_RECORDS]`.
    pub const ZEROS: Record = Record { sector: 0, place: 0, payload: [0; 256] };
}

/// As [`scan`], into a list of records. Room is needed for [`SCAN_RECORDS`]; records behind the last one found are kept.
///
/// Refused: `NoRoom`, `RingEmpty`, `RingTooLong`.
pub fn scan_records(
    ring: &[u8],
    track: u8,
    start_bit: u64,
    records: &mut [Record],
) -> Result<(usize, Option<BadSymbol>), Refusal> {
    let (mut count, mut told) = (0, Told::default());
    done(unsafe {
        linked::fielbmaru_scan_records(
            ring.as_ptr(),
            ring.len(),
            track,
            start_bit,
            records.as_mut_ptr(),
            records.len(),
            &mut count,
            &mut told.block,
            &mut told.symbol,
            &mut told.bit,
        )
    })?;
    Ok((count as usize, told.symbol()))
}

/// Reads all sectors of a track, each by its first record, and returns how many were found, and the first bad symbol.
///
/// `payloads` gets 256 bytes a sector, zeros for a missing one; `statuses` gets a [`Status`] a sector. Whatever stands there before, a
/// refusal keeps it, as it keeps all that is lent: [`Status::NoSync`] will do.
///
/// Refused: `NoRoom` (less than 256 bytes, or one status, for each of [`sectors`]), `RingEmpty`, `RingTooLong`.
pub fn decode_track(
    ring: &[u8],
    track: u8,
    start_bit: u64,
    payloads: &mut [u8],
    statuses: &mut [Status],
) -> Result<(usize, Option<BadSymbol>), Refusal> {
    let (mut found, mut told) = (0, Told::default());
    // A status is a byte, and each number that is written is one of the six: it is proved that they are, by the contract of the function.
    done(unsafe {
        linked::fielbmaru_decode_track(
            ring.as_ptr(),
            ring.len(),
            track,
            start_bit,
            payloads.as_mut_ptr(),
            payloads.len(),
            statuses.as_mut_ptr().cast(),
            statuses.len(),
            &mut found,
            &mut told.block,
            &mut told.symbol,
            &mut told.bit,
        )
    })?;
    Ok((found as usize, told.symbol()))
}

/// Reads a sector of which the ring, scanned from bit 0, has exactly one record.
///
/// Refused: `RingEmpty`, `RingTooLong`, `NoRecord`, `Ambiguous` (several records).
pub fn read_unique(ring: &[u8], track: u8, sector: u8) -> Result<[u8; 256], Refusal> {
    let mut out = [0; 256];
    done(unsafe { linked::fielbmaru_read_unique(ring.as_ptr(), ring.len(), track, sector, &mut out) })?;
    Ok(out)
}

/// Reads a sector of which the ring, scanned from bit 0, has one or more records, all with the same payload.
///
/// Refused: `RingEmpty`, `RingTooLong`, `NoRecord`, `Ambiguous` (differing records).
pub fn read_consistent(ring: &[u8], track: u8, sector: u8) -> Result<[u8; 256], Refusal> {
    let mut out = [0; 256];
    done(unsafe { linked::fielbmaru_read_consistent(ring.as_ptr(), ring.len(), track, sector, &mut out) })?;
    Ok(out)
}

/// Replaces the payload of a sector that [`read_unique`] reads; refused as that is.
pub fn replace_unique(ring: &mut [u8], track: u8, sector: u8, data: &[u8; 256]) -> Result<(), Refusal> {
    done(unsafe { linked::fielbmaru_replace_unique(ring.as_mut_ptr(), ring.len(), track, sector, data) })
}

/// Replaces the payload of a sector that [`read_consistent`] reads, in each of its records; refused as that is.
pub fn replace_consistent(ring: &mut [u8], track: u8, sector: u8, data: &[u8; 256]) -> Result<(), Refusal> {
    done(unsafe { linked::fielbmaru_replace_consistent(ring.as_mut_ptr(), ring.len(), track, sector, data) })
}

/// The ring that a NIB window shows: its first bytes; none of a window that is not [`WINDOW`] bytes. The zone is taken modulo 4.
pub fn orbit(window: &[u8], zone: u8) -> &[u8] {
    let span = unsafe { linked::fielbmaru_orbit(window.as_ptr(), window.len(), zone) };
    &window[..span as usize]
}

/// A slot of a NIB file: its ring, where that begins in the image, and its zone, 0 to 3.
#[derive(Clone, Copy, Debug, PartialEq, Eq)]
pub struct Slot<'a> {
    pub ring: &'a [u8],
    pub at: usize,
    pub zone: u8,
}

/// A slot of a NIB file, if the file has it.
///
/// Refused: `WrongImage`, `WrongEntries` (also for a slot above 83).
pub fn nib_slot(image: &[u8], slot: u64) -> Result<Option<Slot<'_>>, Refusal> {
    let (mut at, mut span, mut zone) = (0, 0, 0);
    done(unsafe { linked::fielbmaru_nib_slot(image.as_ptr(), image.len(), slot, &mut at, &mut span, &mut zone) })?;
    if span == 0 {
        return Ok(None);
    }
    let (at, span) = (at as usize, span as usize);
    Ok(Some(Slot { ring: &image[at..at + span], at, zone: zone as u8 }))
}

/// Makes a NIB file of rings at the front of `out`, each ring repeated over a window of its own, and returns the file's size.
///
/// `lengths` and `zones` have a number a slot, from slot 0 on: length 0 is a slot without, missing numbers are 0, those after
/// the 84th are not looked at. `rings` has the bytes of all rings, joined in the order of the slots.
///
/// Refused: `WrongSum` (the ring bytes are not the sum of the lengths), `RingTooLong`, `NoRing`, `NoRoom`.
pub fn encode_nib(lengths: &[u64], zones: &[u8], rings: &[u8], out: &mut [u8]) -> Result<usize, Refusal> {
    let mut written = 0;
    done(unsafe {
        linked::fielbmaru_encode_nib(
            lengths.as_ptr(),
            lengths.len(),
            zones.as_ptr(),
            zones.len(),
            rings.as_ptr(),
            rings.len(),
            out.as_mut_ptr(),
            out.len(),
            &mut written,
        )
    })?;
    Ok(written as usize)
}

/// Makes a master, the G64 of a D64 of 35 to 42 tracks, at the front of `out`, and returns its size, [`g64_bytes`]; what follows it in
/// `out` is kept.
///
/// Each track is built as [`build_track`] builds it, with its sectors' error bytes for codes, if the D64 has them, and with the ids that
/// stand in bytes A2 and A3 of 18/0. A sector whose error byte is 2, 3, 4, 5 or 9 does not read from the master; every other does.
///
/// Refused: `WrongImage` (the size of no D64), `NoRoom`.
pub fn d64_to_g64(d64: &[u8], out: &mut [u8]) -> Result<usize, Refusal> {
    let mut written = 0;
    done(unsafe {
        linked::fielbmaru_d64_to_g64(d64.as_ptr(), d64.len(), out.as_mut_ptr(), out.len(), &mut written)
    })?;
    Ok(written as usize)
}

/// What clearing found: the free sectors, except 18/0 and the directory's, and how many of them were zeroed, since they read and
/// had a byte that was not zero.
#[derive(Clone, Copy, Debug, PartialEq, Eq)]
pub struct Cleared {
    pub free_sectors: u64,
    pub changed: u64,
}

type Clearer = unsafe extern "C" fn(*mut u8, usize, *mut u64, *mut u64) -> u64;

fn clear(clearer: Clearer, image: &mut [u8]) -> Result<Cleared, Refusal> {
    let (mut free_sectors, mut changed) = (0, 0);
    done(unsafe { clearer(image.as_mut_ptr(), image.len(), &mut free_sectors, &mut changed) })?;
    Ok(Cleared { free_sectors, changed })
}

/// Zeroes the sectors of tracks 1 to 35 of a D64 image that its BAM has free, except 18/0 and the directory's.
///
/// Refused: `WrongImage`, `WrongLink`.
pub fn clear_d64(image: &mut [u8]) -> Result<Cleared, Refusal> {
    clear(linked::fielbmaru_clear_d64, image)
}

/// The same for a G64 image, whose sectors are read by the unique rule, each at its turn; those that are not readable are kept.
///
/// Refused: `WrongImage`, `WrongEntries`, `NoDirectory`, `WrongLink`.
pub fn clear_g64(image: &mut [u8]) -> Result<Cleared, Refusal> {
    clear(linked::fielbmaru_clear_g64, image)
}

/// The same for a NIB image, whose sectors are read by the consistent rule on each whole window, each at its turn.
///
/// Refused: `WrongImage`, `WrongEntries`, `NoDirectory`, `WrongLink`.
pub fn clear_nib(image: &mut [u8]) -> Result<Cleared, Refusal> {
    clear(linked::fielbmaru_clear_nib, image)
}

/// The functions as they are linked: include/fielbmaru.h, line by line.
mod linked {
    #[link(name = "fielbmaru", kind = "static")]
    extern "C" {
        pub fn fielbmaru_encode_block(bytes: *const u8, bytes_len: usize, out: *mut u8, out_len: usize) -> u64;
        pub fn fielbmaru_decode_block(code: *const u8, code_len: usize, out: *mut u8, out_len: usize, symbol: *mut u64) -> u64;
        pub fn fielbmaru_build_track(
            track: u8,
            payloads: *const u8,
            payloads_len: usize,
            codes: *const u8,
            codes_len: usize,
            id1: u8,
            id2: u8,
            out: *mut u8,
            out_len: usize,
        ) -> u64;
        pub fn fielbmaru_scan(
            ring: *const u8,
            ring_len: usize,
            track: u8,
            start_bit: u64,
            rows: *mut u64,
            rows_len: usize,
            payloads: *mut u8,
            payloads_len: usize,
            count: *mut u64,
            bad_block: *mut u64,
            bad_symbol: *mut u64,
            bad_bit: *mut u64,
        ) -> u64;
        pub fn fielbmaru_scan_records(
            ring: *const u8,
            ring_len: usize,
            track: u8,
            start_bit: u64,
            records: *mut super::Record,
            records_len: usize,
            count: *mut u64,
            bad_block: *mut u64,
            bad_symbol: *mut u64,
            bad_bit: *mut u64,
        ) -> u64;
        pub fn fielbmaru_decode_track(
            ring: *const u8,
            ring_len: usize,
            track: u8,
            start_bit: u64,
            payloads: *mut u8,
            payloads_len: usize,
            statuses: *mut u8,
            statuses_len: usize,
            found: *mut u64,
            bad_block: *mut u64,
            bad_symbol: *mut u64,
            bad_bit: *mut u64,
        ) -> u64;
        pub fn fielbmaru_read_unique(ring: *const u8, ring_len: usize, track: u8, sector: u8, out: *mut [u8; 256]) -> u64;
        pub fn fielbmaru_read_consistent(ring: *const u8, ring_len: usize, track: u8, sector: u8, out: *mut [u8; 256]) -> u64;
        pub fn fielbmaru_replace_unique(ring: *mut u8, ring_len: usize, track: u8, sector: u8, data: *const [u8; 256]) -> u64;
        pub fn fielbmaru_replace_consistent(ring: *mut u8, ring_len: usize, track: u8, sector: u8, data: *const [u8; 256]) -> u64;
        pub fn fielbmaru_orbit(window: *const u8, window_len: usize, zone: u8) -> u64;
        pub fn fielbmaru_nib_slot(
            image: *const u8,
            image_len: usize,
            slot: u64,
            at: *mut u64,
            span: *mut u64,
            zone: *mut u64,
        ) -> u64;
        pub fn fielbmaru_encode_nib(
            lengths: *const u64,
            lengths_len: usize,
            zones: *const u8,
            zones_len: usize,
            rings: *const u8,
            rings_len: usize,
            out: *mut u8,
            out_len: usize,
            written: *mut u64,
        ) -> u64;
        pub fn fielbmaru_d64_to_g64(
            d64: *const u8,
            d64_len: usize,
            out: *mut u8,
            out_len: usize,
            written: *mut u64,
        ) -> u64;
        pub fn fielbmaru_clear_d64(image: *mut u8, image_len: usize, free_sectors: *mut u64, changed: *mut u64) -> u64;
        pub fn fielbmaru_clear_g64(image: *mut u8, image_len: usize, free_sectors: *mut u64, changed: *mut u64) -> u64;
        pub fn fielbmaru_clear_nib(image: *mut u8, image_len: usize, free_sectors: *mut u64, changed: *mut u64) -> u64;
    }
}
