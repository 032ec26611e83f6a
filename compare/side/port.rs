// The proved library's functions, as crates/c_* export them: a part is a pointer and a length.

// A record in memory: its sector, its data place, its payload.
#[repr(C)]
pub struct Record {
    sector: u64,
    place: u64,
    payload: [u8; 256],
}

// As many numbers take the room of a record.
pub const RECORD_NUMBERS: usize = std::mem::size_of::<Record>() / 8;

extern "C" {
    fn fielbmaru_build_track(
        track: u8,
        payloads: *const u8,
        payload_bytes: usize,
        codes: *const u8,
        code_bytes: usize,
        id1: u8,
        id2: u8,
        out: *mut u8,
        out_bytes: usize,
    ) -> u64;
    fn fielbmaru_scan(
        ring: *const u8,
        ring_bytes: usize,
        track: u8,
        start_bit: u64,
        rows: *mut u64,
        numbers: usize,
        payloads: *mut u8,
        payload_bytes: usize,
        count: *mut u64,
        bad_block: *mut u64,
        bad_symbol: *mut u64,
        bad_bit: *mut u64,
    ) -> u64;
    fn fielbmaru_scan_records(
        ring: *const u8,
        ring_bytes: usize,
        track: u8,
        start_bit: u64,
        records: *mut Record,
        record_count: usize,
        count: *mut u64,
        bad_block: *mut u64,
        bad_symbol: *mut u64,
        bad_bit: *mut u64,
    ) -> u64;
    fn fielbmaru_decode_track(
        ring: *const u8,
        ring_bytes: usize,
        track: u8,
        start_bit: u64,
        payloads: *mut u8,
        payload_bytes: usize,
        statuses: *mut u8,
        status_bytes: usize,
        found: *mut u64,
        bad_block: *mut u64,
        bad_symbol: *mut u64,
        bad_bit: *mut u64,
    ) -> u64;
    fn fielbmaru_encode_block(bytes: *const u8, byte_count: usize, out: *mut u8, out_bytes: usize) -> u64;
    fn fielbmaru_decode_block(
        code: *const u8,
        code_bytes: usize,
        out: *mut u8,
        out_bytes: usize,
        symbol: *mut u64,
    ) -> u64;
    fn fielbmaru_read_unique(ring: *const u8, ring_bytes: usize, track: u8, sector: u8, out: *mut u8) -> u64;
    fn fielbmaru_read_consistent(ring: *const u8, ring_bytes: usize, track: u8, sector: u8, out: *mut u8) -> u64;
    fn fielbmaru_replace_unique(ring: *mut u8, ring_bytes: usize, track: u8, sector: u8, data: *const u8) -> u64;
    fn fielbmaru_replace_consistent(ring: *mut u8, ring_bytes: usize, track: u8, sector: u8, data: *const u8) -> u64;
    fn fielbmaru_orbit(window: *const u8, window_bytes: usize, zone: u8) -> u64;
    fn fielbmaru_nib_slot(
        image: *const u8,
        image_bytes: usize,
        slot: u64,
        at: *mut u64,
        span: *mut u64,
        zone: *mut u64,
    ) -> u64;
    fn fielbmaru_encode_nib(
        lengths: *const u64,
        length_count: usize,
        zones: *const u8,
        zone_count: usize,
        rings: *const u8,
        ring_bytes: usize,
        out: *mut u8,
        out_bytes: usize,
        written: *mut u64,
    ) -> u64;
    fn fielbmaru_d64_to_g64(d64: *const u8, d64_bytes: usize, out: *mut u8, out_bytes: usize, written: *mut u64)
        -> u64;
    fn fielbmaru_clear_d64(image: *mut u8, image_bytes: usize, free: *mut u64, changed: *mut u64) -> u64;
    fn fielbmaru_clear_g64(image: *mut u8, image_bytes: usize, free: *mut u64, changed: *mut u64) -> u64;
    fn fielbmaru_clear_nib(image: *mut u8, image_bytes: usize, free: *mut u64, changed: *mut u64) -> u64;
}

pub fn build([track, id1, id2]: [u8; 3], payloads: &[u8], codes: &[u8], out: &mut [u8]) -> u64 {
    let (p, c) = (payloads.as_ptr(), codes.as_ptr());
    unsafe { fielbmaru_build_track(track, p, payloads.len(), c, codes.len(), id1, id2, out.as_mut_ptr(), out.len()) }
}

// What a scan tells beside its rows: how many records, or sectors found, and the first bad symbol: block, symbol, ring bit.
pub type Told<'a> = [&'a mut u64; 4];

pub fn scan(ring: &[u8], track: u8, start: u64, rows: &mut [u64], payloads: &mut [u8], told: Told) -> u64 {
    let (r, p) = (rows.as_mut_ptr(), payloads.as_mut_ptr());
    let (n, rn, pn) = (ring.len(), rows.len(), payloads.len());
    let [count, block, symbol, bit] = told;
    unsafe { fielbmaru_scan(ring.as_ptr(), n, track, start, r, rn, p, pn, count, block, symbol, bit) }
}

// The room is lent as numbers, a whole number of records.
pub fn scan_records(ring: &[u8], track: u8, start: u64, room: &mut [u64], told: Told) -> u64 {
    let (r, rn) = (room.as_mut_ptr().cast(), room.len() / RECORD_NUMBERS);
    let [count, block, symbol, bit] = told;
    unsafe { fielbmaru_scan_records(ring.as_ptr(), ring.len(), track, start, r, rn, count, block, symbol, bit) }
}

pub fn read(ring: &[u8], track: u8, start: u64, payloads: &mut [u8], statuses: &mut [u8], told: Told) -> u64 {
    let (p, s) = (payloads.as_mut_ptr(), statuses.as_mut_ptr());
    let (n, pn, sn) = (ring.len(), payloads.len(), statuses.len());
    let [found, block, symbol, bit] = told;
    unsafe { fielbmaru_decode_track(ring.as_ptr(), n, track, start, p, pn, s, sn, found, block, symbol, bit) }
}

pub fn encode_block(bytes: &[u8], out: &mut [u8]) -> u64 {
    unsafe { fielbmaru_encode_block(bytes.as_ptr(), bytes.len(), out.as_mut_ptr(), out.len()) }
}

pub fn decode_block(code: &[u8], out: &mut [u8], symbol: &mut u64) -> u64 {
    unsafe { fielbmaru_decode_block(code.as_ptr(), code.len(), out.as_mut_ptr(), out.len(), symbol) }
}

pub fn sector(ring: &[u8], track: u8, sector: u8, unique: bool, out: &mut [u8; 256]) -> u64 {
    let read = if unique { fielbmaru_read_unique } else { fielbmaru_read_consistent };
    unsafe { read(ring.as_ptr(), ring.len(), track, sector, out.as_mut_ptr()) }
}

pub fn replace(ring: &mut [u8], track: u8, sector: u8, data: &[u8; 256], unique: bool) -> u64 {
    let replace = if unique { fielbmaru_replace_unique } else { fielbmaru_replace_consistent };
    unsafe { replace(ring.as_mut_ptr(), ring.len(), track, sector, data.as_ptr()) }
}

pub fn orbit(window: &[u8], zone: u8) -> u64 {
    unsafe { fielbmaru_orbit(window.as_ptr(), window.len(), zone) }
}

pub fn slot(image: &[u8], slot: u64, [at, span, zone]: [&mut u64; 3]) -> u64 {
    unsafe { fielbmaru_nib_slot(image.as_ptr(), image.len(), slot, at, span, zone) }
}

pub fn encode_nib(lengths: &[u64], zones: &[u8], rings: &[u8], out: &mut [u8], written: &mut u64) -> u64 {
    let (l, z, r, o) = (lengths.as_ptr(), zones.as_ptr(), rings.as_ptr(), out.as_mut_ptr());
    unsafe { fielbmaru_encode_nib(l, lengths.len(), z, zones.len(), r, rings.len(), o, out.len(), written) }
}

pub fn master(d64: &[u8], out: &mut [u8], written: &mut u64) -> u64 {
    unsafe { fielbmaru_d64_to_g64(d64.as_ptr(), d64.len(), out.as_mut_ptr(), out.len(), written) }
}

// The kinds of image: 0 D64, 1 G64, 2 NIB.
pub fn clear(image: &mut [u8], kind: u32, free: &mut u64, changed: &mut u64) -> u64 {
    let clear = match kind {
        0 => fielbmaru_clear_d64,
        1 => fielbmaru_clear_g64,
        _ => fielbmaru_clear_nib,
    };
    unsafe { clear(image.as_mut_ptr(), image.len(), free, changed) }
}
