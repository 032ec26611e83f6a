// Built tracks: each zone with each code, ids, payloads; fewer and more payloads and codes than sectors; refusals.
use crate::cases::{Buffer, Cases, ZONE_TRACKS};
use crate::fdd1541::gcr;
use crate::machine::CODES;

// The target that the tracks are built into holds this beforehand, so that the sum shows what is not written.
const SPARE: u8 = 0xA5;
const ROOM: u32 = 8000;

fn build(c: &mut Cases, room: u32, track: u8, payload_bytes: u32, codes: u32) {
    let ids = u32::from(c.choose.byte()) << 8 | u32::from(c.choose.byte());
    c.row('B', &[0, room, u32::from(track) << 16 | ids, 0, payload_bytes, codes]);
}

fn each_code(c: &mut Cases) {
    c.heading("each zone and each code");
    for track in [0, 1, 17, 18, 24, 25, 30, 31, 42, 43, 255] {
        c.fill(Buffer::Source, 0, 21 * 256);
        for code in (0..=16).chain([0x55, 0x80, 0xFF]) {
            c.store(Buffer::Source, CODES as u32, 21, code);
            build(c, ROOM, track, 21 * 256, 21);
        }
    }
}

fn mixed_codes(c: &mut Cases) {
    c.heading("a code for each sector");
    for _ in 0..40 * c.scale {
        let track = c.choose.one_of(&ZONE_TRACKS);
        let often = c.choose.below(16) as u8;
        c.fill(Buffer::Source, 0, 21 * 256);
        c.random_codes(often);
        build(c, ROOM, track, 21 * 256, 21);
    }
}

fn plain_payloads(c: &mut Cases) {
    c.heading("payloads of one byte value");
    for (k, byte) in [0x00, 0xFF, 0x55, 0x07, 0x08, 0xA5].into_iter().enumerate() {
        c.store(Buffer::Source, 0, 21 * 256, byte);
        build(c, ROOM, ZONE_TRACKS[k % 4], 21 * 256, 0);
    }
}

fn counts(c: &mut Cases) {
    c.heading("fewer and more payloads and codes");
    for track in ZONE_TRACKS {
        let n = u32::from(gcr::sectors_per_track(track));
        c.fill(Buffer::Source, 0, 40 * 256);
        c.random_codes(5);
        for payloads in [0, 1, n - 1, n, n + 1, 40] {
            for codes in [0, 1, n - 1, n, n + 1, 24] {
                build(c, ROOM, track, 256 * payloads, codes);
            }
        }
    }
}

fn refusals(c: &mut Cases) {
    c.heading("room and payload bytes");
    for track in ZONE_TRACKS {
        let capacity = gcr::capacity(track) as u32;
        for room in [0, 1, capacity - 1, capacity, capacity + 1] {
            for bytes in [0, 255, 256, 257, 511] {
                build(c, room, track, bytes, 3);
            }
        }
    }
}

pub fn all(c: &mut Cases) {
    c.store(Buffer::Target, 0, 8192, SPARE);
    each_code(c);
    mixed_codes(c);
    plain_payloads(c);
    c.store(Buffer::Target, 0, 8192, SPARE);
    counts(c);
    refusals(c);
}
