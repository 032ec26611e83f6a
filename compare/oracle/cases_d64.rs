// Clearing of D64 images: every size, bitmaps, chains, wrong links.
use crate::cases::{Buffer, Cases};
use crate::cases_disk::{chain, clear, directory, link, place, D64};
use crate::fdd1541::media;

// A D64 image of random bytes.
fn new_d64(c: &mut Cases, size: u32, bitmap: Option<u8>) {
    c.fill(Buffer::Target, 0, size);
    directory(c, Buffer::Target, bitmap);
}

fn sizes(c: &mut Cases) {
    c.heading("every D64 size, and one byte off");
    for tracks in 34..=43u8 {
        let sectors = media::sectors_to(tracks) as u32;
        for size in [256 * sectors, 257 * sectors] {
            new_d64(c, size + 1, None);
            for n in [size - 1, size + 1, size, size] {
                clear(c, n, D64);
            }
        }
    }
    for n in [0, 1, 256, 91_392, 91_648] {
        clear(c, n, D64);
    }
}

fn bitmaps(c: &mut Cases) {
    c.heading("bitmaps");
    for bitmap in [0x00, 0xFF, 0x55, 0xAA, 0x01, 0x80] {
        new_d64(c, 174_848, Some(bitmap));
        clear(c, 174_848, D64);
    }
    c.store(Buffer::Target, 0, 174_848, 0);
    directory(c, Buffer::Target, Some(0xFF));
    clear(c, 174_848, D64);
    // one byte at each end of some sectors
    for (track, sector) in [(1, 0), (17, 20), (18, 2), (18, 18), (19, 0), (30, 17), (35, 16)] {
        let at = place(track, sector);
        c.put(Buffer::Target, at, &[1]);
        c.put(Buffer::Target, at + 255, &[0x80]);
    }
    clear(c, 174_848, D64);
}

fn chains(c: &mut Cases) {
    c.heading("directory chains that end");
    for _ in 0..16 * c.scale {
        let tracks = c.choose.within(35, 42) as u8;
        let size = 256 * media::sectors_to(tracks) as u32;
        new_d64(c, size, None);
        let long = c.choose.within(1, 12) as usize;
        let end = (0, c.choose.byte());
        chain(c, Buffer::Target, tracks, long, end);
        clear(c, size, D64);
    }
    c.heading("a chain through every sector");
    let size = 256 * media::sectors_to(42) as u32;
    new_d64(c, size, Some(0xFF));
    chain(c, Buffer::Target, 42, 801, (0, 0));
    clear(c, size, D64);
}

fn wrong_links(c: &mut Cases) {
    let ends: &[(u8, u8)] =
        &[(18, 0), (17, 21), (18, 19), (24, 19), (25, 18), (30, 18), (31, 17), (36, 0), (43, 0), (255, 255), (1, 255)];
    c.heading("links out of range, and to 18/0");
    for &end in ends {
        new_d64(c, 174_848, None);
        link(c, Buffer::Target, (18, 0), end);
        clear(c, 174_848, D64);
        new_d64(c, 174_848, None);
        chain(c, Buffer::Target, 35, 3, end);
        clear(c, 174_848, D64);
    }
    c.heading("loops, and a first link of track 0");
    for sector in [0, 1, 255] {
        new_d64(c, 174_848, None);
        link(c, Buffer::Target, (18, 0), (0, sector));
        clear(c, 174_848, D64);
    }
    for _ in 0..8 * c.scale {
        new_d64(c, 174_848, None);
        let visited = chain(c, Buffer::Target, 35, 5, (0, 0));
        let back = c.choose.one_of(&visited);
        link(c, Buffer::Target, visited[4], back);
        clear(c, 174_848, D64);
    }
    c.heading("links to the tracks above 35");
    for tracks in 35..=42u8 {
        let size = 257 * media::sectors_to(tracks) as u32;
        for to in 35..=43 {
            new_d64(c, size, None);
            link(c, Buffer::Target, (18, 1), (to, 3));
            if to <= tracks {
                link(c, Buffer::Target, (to, 3), (0, 1));
            }
            clear(c, size, D64);
        }
    }
}

pub fn all(c: &mut Cases) {
    sizes(c);
    bitmaps(c);
    chains(c);
    wrong_links(c);
}
