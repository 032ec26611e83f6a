// Clearing of NIB images: damaged windows, differing copies, refusals, wrong links.
use crate::cases::{Buffer, Cases, Ring};
use crate::cases_disk::{
    again, clear, directory, disk, disk_track, link, place, track_chain, KEPT, LINKS, NIB, TRACKS,
};
use crate::fdd1541::gcr;

const WINDOW: u32 = 8192;

// A NIB image with these tracks, each repeated over its window; its length.
fn image(c: &mut Cases, start: u32, tracks: &[u8]) -> u32 {
    c.store(Buffer::Target, start, 256, 0);
    c.put(Buffer::Target, start, b"MNIB-1541-RAW\x01");
    let pairs: Vec<u8> = tracks.iter().flat_map(|&t| [2 * t, t % 4]).collect();
    c.put(Buffer::Target, start + 16, &pairs);
    let mut at = 256;
    for &track in tracks {
        let n = disk_track(c, start + at, track, 0);
        c.copy(start + at + n, WINDOW - n, start + at);
        at += WINDOW;
    }
    at
}

fn good(c: &mut Cases, n: u32) {
    c.heading("cleared, and cleared again");
    again(c, n);
    clear(c, n, NIB);
    clear(c, n, NIB);
    c.heading("bytes behind are kept");
    again(c, n);
    clear(c, n + 5, NIB);
    c.heading("damaged windows");
    for k in 0..10 * c.scale {
        again(c, n);
        let bits = [10, 40, 200, 1000][k as usize % 4];
        // a ring has at most 65,535 bytes
        c.flip(Ring::new(256, 65_535.min(n - 256)), bits);
        clear(c, n, NIB);
    }
}

// The second turn of a window has other payloads: its whole sectors differ from those of the first.
fn differing(c: &mut Cases, n: u32) {
    c.heading("differing copies");
    for (k, &track) in TRACKS.iter().enumerate() {
        again(c, n);
        let at = 256 + WINDOW * k as u32;
        let capacity = gcr::capacity(track) as u32;
        c.fill(Buffer::Source, place(track, 0), 1024);
        disk_track(c, 0x48000, track, 0);
        c.copy(at + capacity, WINDOW - capacity, 0x48000);
        clear(c, n, NIB);
        disk(c);
    }
}

// The zone is the track's own, so that the orbit is the first turn. Sector 0 is free, and its second copy lies behind
// the orbit, in the window: both are cleared.
fn behind_the_orbit(c: &mut Cases) {
    c.heading("slip: cleared in the window, not in the orbit");
    for (track, zone) in [(2, 3), (17, 3), (19, 2), (25, 1), (31, 0)] {
        let n = image(c, 0, &[18, track]);
        c.put(Buffer::Target, 16, &[36, 2, 2 * track, zone]);
        clear(c, n, NIB);
        clear(c, n, NIB);
    }
}

fn refusals(c: &mut Cases, n: u32) {
    c.heading("length and signature");
    again(c, n);
    for short in [0, 13, 255, 256, 257, n - 1] {
        clear(c, short, NIB);
    }
    for k in 0..14 {
        again(c, 256);
        c.put(Buffer::Target, k, &[0x20]);
        clear(c, n, NIB);
    }
    c.heading("catalogue");
    for (at, code) in [(16, 0), (16, 1), (16, 86), (18, 2), (18, 0), (18, 1), (22, 0), (22, 40), (30, 255), (32, 9)] {
        again(c, n);
        c.put(Buffer::Target, at, &[code]);
        clear(c, n, NIB);
    }
}

fn bitmaps(c: &mut Cases) {
    c.heading("random bitmaps and chains");
    for _ in 0..4 * c.scale {
        c.fill(Buffer::Source, 0, place(36, 0));
        directory(c, Buffer::Source, None);
        let long = c.choose.within(1, 6) as usize;
        let list = track_chain(c, long);
        let n = image(c, 0, &list);
        clear(c, n, NIB);
    }
}

fn links(c: &mut Cases) {
    c.heading("links of a NIB");
    for to in LINKS {
        disk(c);
        link(c, Buffer::Source, (18, 1), to);
        let n = image(c, 0, &[1, 18, 35]);
        clear(c, n, NIB);
    }
}

pub fn all(c: &mut Cases) {
    disk(c);
    let n = image(c, KEPT, &TRACKS);
    good(c, n);
    differing(c, n);
    behind_the_orbit(c);
    refusals(c, n);
    links(c);
    bitmaps(c);
}
