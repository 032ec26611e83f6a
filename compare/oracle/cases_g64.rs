// Clearing of G64 images: damaged, refused, with wrong links, and with entries that overlap.
use crate::cases::{Buffer, Cases, Ring};
use crate::cases_disk::{
    again, clear, directory, disk, disk_track, link, place, track_chain, G64, KEPT, LINKS, TRACKS,
};

fn header(c: &mut Cases, at: u32, half_tracks: u8, most: u16) {
    c.put(Buffer::Target, at, b"GCR-1541");
    let [low, high] = most.to_le_bytes();
    c.put(Buffer::Target, at + 8, &[0, half_tracks, low, high]);
}

// Table entry of a track: the place of its two length bytes, counted from the image's start.
fn entry(c: &mut Cases, image: u32, track: u8, to: u32) {
    c.put(Buffer::Target, image + 12 + 8 * (u32::from(track) - 1), &to.to_le_bytes());
}

// An image at a place of the target with these tracks; its length.
fn image(c: &mut Cases, start: u32, tracks: &[u8]) -> u32 {
    c.store(Buffer::Target, start, 684, 0);
    header(c, start, 84, 7928);
    let mut at = 684;
    for &track in tracks {
        entry(c, start, track, at);
        let n = disk_track(c, start + at + 2, track, 0);
        c.put(Buffer::Target, start + at, &(n as u16).to_le_bytes());
        at += 2 + n;
    }
    at
}

fn good(c: &mut Cases, n: u32) {
    c.heading("cleared, and cleared again");
    again(c, n);
    clear(c, n, G64);
    clear(c, n, G64);
    c.heading("byte 8 is not looked at, bytes behind are kept");
    again(c, n);
    c.put(Buffer::Target, 8, &[77]);
    clear(c, n + 9, G64);
    c.heading("damaged tracks");
    for k in 0..10 * c.scale {
        again(c, n);
        let bits = [10, 40, 200, 1000][k as usize % 4];
        c.flip(Ring::new(684, n - 684), bits);
        clear(c, n, G64);
    }
}

fn refusals(c: &mut Cases, n: u32) {
    c.heading("length and signature");
    again(c, n);
    for short in [0, 7, 11, 12, 13, 683, 684, 685] {
        clear(c, short, G64);
    }
    for k in 0..8 {
        again(c, 684);
        c.put(Buffer::Target, k, &[0]);
        clear(c, n, G64);
    }
    c.heading("counts");
    for half_tracks in [0, 1, 34, 35, 36, 84, 85, 255] {
        again(c, n);
        header(c, 0, half_tracks, 7928);
        clear(c, n, G64);
    }
    for most in [0, 1, 6249, 7691, 7692, 65_535] {
        again(c, n);
        header(c, 0, 84, most);
        clear(c, n, G64);
    }
}

fn wrong_entries(c: &mut Cases, n: u32) {
    c.heading("entries");
    for to in [1, 10, 683, n - 2, n - 1, n, n + 1, u32::MAX, u32::MAX - 1, 0x8000_0000] {
        again(c, n);
        entry(c, 0, 3, to);
        clear(c, n, G64);
    }
    for short in [n - 1, n + 1] {
        again(c, n);
        clear(c, short, G64);
    }
    again(c, n);
    c.put(Buffer::Target, 684, &[0, 0]);
    clear(c, n, G64);
    c.heading("track 18 missing or unreadable");
    again(c, n);
    entry(c, 0, 18, 0);
    clear(c, n, G64);
    again(c, n);
    entry(c, 0, 18, 684);
    clear(c, n, G64);
}

// The directory's first sector: missing, wrong, twice.
fn links(c: &mut Cases) {
    c.heading("links of a G64");
    for to in LINKS {
        disk(c);
        link(c, Buffer::Source, (18, 1), to);
        let n = image(c, 0, &[1, 18, 35]);
        clear(c, n, G64);
        disk(c);
        link(c, Buffer::Source, (18, 0), to);
        let n = image(c, 0, &[1, 18, 35]);
        clear(c, n, G64);
    }
    c.heading("codes on track 18");
    for sector in 0..3 {
        for code in [2, 3, 4, 5, 9, 11] {
            disk(c);
            link(c, Buffer::Source, (18, 1), (18, 2));
            link(c, Buffer::Source, (18, 2), (0, 0));
            let n = image(c, 0, &[17, 18]);
            let mut codes = [1u8; 24];
            codes[sector] = code;
            c.codes(&codes);
            disk_track(c, 684 + 2 + 7692 + 2, 18, 19);
            clear(c, n, G64);
        }
    }
}

// Entries of several tracks at the same place, in each other, and in the tables.
fn overlaps(c: &mut Cases) {
    c.heading("overlapping entries");
    disk(c);
    let n = image(c, KEPT, &TRACKS);
    for (track, to) in [(3, 684), (4, 684 + 7694), (35, 684), (20, 10), (1, 10), (36, 684)] {
        again(c, n);
        entry(c, 0, track, to);
        clear(c, n, G64);
    }
    c.heading("one block for two tracks");
    for (first, second) in
        [((1, 0), (2, 0)), ((2, 0), (1, 2)), ((19, 2), (17, 0)), ((3, 0), (35, 2)), ((3, 1), (35, 2))]
    {
        let n = image(c, 0, &[18]);
        shared_block(c, n, first, second);
        clear(c, n + 900, G64);
        clear(c, n + 900, G64);
    }
    c.heading("a ring that begins in the tables");
    behind_the_tables(c);
    c.heading("a block among the speeds");
    among_the_speeds(c);
    c.heading("a block over the largest size");
    over_the_size(c);
}

// A block that the rings of two entries have: a header of the first track stands before it, one of the second track
// behind it, at the end of the second ring, whose join lies just before the block.
fn shared_block(c: &mut Cases, at: u32, first: (u8, u8), second: (u8, u8)) {
    let all = Ring::new(at, 900);
    c.store(Buffer::Target, at, 900, 0x55);
    c.put(Buffer::Target, at, &500u16.to_le_bytes());
    c.put(Buffer::Target, at + 70, &420u16.to_le_bytes());
    c.new_block(7, [0, 0]);
    c.ones(all, 8 * 50 - 40, 40);
    c.true_header(all, 8 * 50, first.0, first.1);
    c.ones(all, 8 * 80 - 20, 20);
    c.block(all, 8 * 80);
    c.ones(all, 8 * 478 - 20, 20);
    c.true_header(all, 8 * 478, second.0, second.1);
    entry(c, 0, first.0, at);
    entry(c, 0, second.0, at + 70);
}

// Track 18 at a place, with its entry.
fn track_18(c: &mut Cases, to: u32) -> u32 {
    c.put(Buffer::Target, to, &7142u16.to_le_bytes());
    disk_track(c, to + 2, 18, 0);
    entry(c, 0, 18, to);
    to + 2 + 7142
}

// Track 1's length bytes are those of the largest size, so that its ring has the tables in it.
fn behind_the_tables(c: &mut Cases) {
    let ring = Ring::new(12, 7928);
    image(c, 0, &[]);
    c.store(Buffer::Target, 684, 7928 + 12 - 684, 0x55);
    c.new_block(7, [0, 0]);
    c.sector(ring, 8 * 700, 1, 0, 40, 72);
    entry(c, 0, 1, 10);
    let n = track_18(c, 7944);
    clear(c, n, G64);
    clear(c, n, G64);
}

// With 35 half-tracks the speeds follow track 18's entry. Track 1's length bytes are the low half of that entry, its
// block begins among the speeds, and its header stands at its ring's end.
fn among_the_speeds(c: &mut Cases) {
    let ring = Ring::new(150, 600);
    c.store(Buffer::Target, 0, 0x10258, 0);
    c.store(Buffer::Target, 300, 450, 0x55);
    header(c, 0, 35, 7928);
    c.new_block(7, [0, 0]);
    c.ones(ring, 16, 24);
    c.block(ring, 40);
    c.ones(ring, 8 * 600 - 100, 20);
    c.true_header(ring, 8 * 600 - 80, 1, 0);
    entry(c, 0, 1, 148);
    let n = track_18(c, 0x10258);
    clear(c, n, G64);
    clear(c, n, G64);
}

// Track 1's block ends on bytes 10 and 11, and clearing it lowers the largest size below track 2's length. The tables
// were read before.
fn over_the_size(c: &mut Cases) {
    let length = 0x5410;
    let ring = Ring::new(10, length);
    let other = Ring::new(0x6002, 20_000);
    image(c, 0, &[]);
    c.store(Buffer::Target, 684, 0x6000 - 684, 0x55);
    c.put(Buffer::Target, 8, &[0x10]);
    c.new_block(7, [0xFF, 0xFF]);
    let place = ring.bits() - 2600 + 16;
    c.ones(ring, place - 200, 40);
    c.true_header(ring, place - 160, 1, 0);
    c.ones(ring, place - 40, 40);
    c.block(ring, place);
    entry(c, 0, 1, 8);
    c.store(Buffer::Target, 0x6000, 20_002, 0x55);
    c.put(Buffer::Target, 0x6000, &20_000u16.to_le_bytes());
    c.new_block(7, [0, 0]);
    c.sector(other, 5000, 2, 2, 40, 72);
    entry(c, 0, 2, 0x6000);
    let n = track_18(c, 0x6000 + 20_002);
    clear(c, n, G64);
    clear(c, n, G64);
}

fn bitmaps(c: &mut Cases) {
    c.heading("random bitmaps and chains");
    for _ in 0..4 * c.scale {
        c.fill(Buffer::Source, 0, place(36, 0));
        directory(c, Buffer::Source, None);
        let long = c.choose.within(1, 6) as usize;
        let list = track_chain(c, long);
        let n = image(c, 0, &list);
        clear(c, n, G64);
    }
}

pub fn all(c: &mut Cases) {
    disk(c);
    let n = image(c, KEPT, &TRACKS);
    good(c, n);
    refusals(c, n);
    wrong_entries(c, n);
    links(c);
    bitmaps(c);
    overlaps(c);
}
