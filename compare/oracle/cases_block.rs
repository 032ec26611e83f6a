// Blocks coded and decoded: lengths about a group's, a header's and a data block's; a bad symbol at each place; rooms.
use crate::cases::{Buffer, Cases};
use crate::fdd1541::{constants::GCR_ENCODE, gcr};

// The room holds this beforehand, so that the sum shows what is not written.
const SPARE: u8 = 0xA5;
const ROOM: u32 = 400;
// Where a code stands in the source, behind the bytes that are coded.
const CODE: u32 = 0x1000;
const HEADER: usize = 8;
const DATA: usize = 260;

fn encode(c: &mut Cases, room: u32, n: usize) {
    c.row('b', &[0, room, 0, n as u32]);
}

fn decode(c: &mut Cases, room: u32, n: usize) {
    c.row('d', &[0, room, CODE, n as u32]);
}

// A new block in the source, and its code.
fn new_block(c: &mut Cases, n: usize) -> Vec<u8> {
    let bytes: Vec<u8> = (0..n).map(|_| c.choose.byte()).collect();
    let code = gcr::encode_block(&bytes);
    c.put(Buffer::Source, 0, &bytes);
    c.put(Buffer::Source, CODE, &code);
    code
}

fn lengths(c: &mut Cases) {
    c.heading("blocks of many lengths");
    for n in (0..=17).chain([255, 256, 257, 258, 259, 260, 261]) {
        let code = new_block(c, n);
        encode(c, ROOM, n);
        for more in 0..=5 {
            decode(c, ROOM, code.len() + more);
        }
    }
}

fn rooms(c: &mut Cases) {
    c.heading("rooms of blocks");
    for n in [1, 4, 5, HEADER, DATA] {
        let code = new_block(c, n);
        let groups = code.len() as u32 / 5;
        for (coded, decoded) in [(0, 0), (5, 4), (5 * groups - 1, 4 * groups - 1), (5 * groups, 4 * groups)] {
            encode(c, coded, n);
            decode(c, decoded, code.len());
        }
    }
}

// The code with other symbols in it is decoded, and then put back.
fn decode_changed(c: &mut Cases, code: &[u8], changed: &[u8], room: u32) {
    let differs = |k: &usize| code[*k] != changed[*k];
    let Some(first) = (0..code.len()).find(differs) else { return };
    let last = (0..code.len()).rev().find(differs).unwrap_or(first);
    c.put(Buffer::Source, CODE + first as u32, &changed[first..=last]);
    decode(c, room, code.len());
    c.put(Buffer::Source, CODE + first as u32, &code[first..=last]);
}

fn with_symbol(code: &[u8], k: usize, symbol: u8) -> Vec<u8> {
    let mut changed = code.to_vec();
    for i in 0..5 {
        gcr::set_bit(&mut changed, 5 * k + i, symbol >> (4 - i) & 1);
    }
    changed
}

fn any_bad(c: &mut Cases) -> u8 {
    loop {
        let symbol = c.choose.below(32) as u8;
        if !GCR_ENCODE.contains(&symbol) {
            return symbol;
        }
    }
}

fn each_symbol(c: &mut Cases) {
    c.heading("each symbol of a group");
    let code = new_block(c, 4);
    for k in 0..8 {
        for symbol in 0..32 {
            decode_changed(c, &code, &with_symbol(&code, k, symbol), ROOM);
        }
    }
}

fn each_place(c: &mut Cases) {
    c.heading("a bad symbol at each place");
    let header = new_block(c, HEADER);
    for k in 0..2 * HEADER {
        let bad = any_bad(c);
        decode_changed(c, &header, &with_symbol(&header, k, bad), ROOM);
    }
    let data = new_block(c, DATA);
    let some: Vec<usize> = (0..40 * c.scale).map(|_| c.choose.below(2 * DATA as u64) as usize).collect();
    for k in [0, 1, 7, 8, 9, 255, 256, 259, 260, 511, 512, 518, 519].into_iter().chain(some) {
        let bad = any_bad(c);
        decode_changed(c, &data, &with_symbol(&data, k, bad), ROOM);
        decode_changed(c, &data, &with_symbol(&data, k, bad), DATA as u32 - 1);
    }
}

fn several(c: &mut Cases) {
    c.heading("the first of several bad symbols");
    for _ in 0..20 * c.scale {
        let n = c.choose.within(1, 40) as usize;
        let code = new_block(c, n);
        let symbols = code.len() as u64 / 5 * 8;
        let mut changed = code.clone();
        for _ in 0..c.choose.within(2, 4) {
            let (k, bad) = (c.choose.below(symbols) as usize, any_bad(c));
            changed = with_symbol(&changed, k, bad);
        }
        decode_changed(c, &code, &changed, ROOM);
    }
}

// Five zeros, and codes of random bits.
fn noise(c: &mut Cases) {
    c.heading("codes of zeros and of random bits");
    c.store(Buffer::Source, CODE, 10, 0);
    decode(c, ROOM, 5);
    decode(c, ROOM, 10);
    for _ in 0..40 * c.scale {
        let n = c.choose.below(26) as u32;
        c.fill(Buffer::Source, CODE, n);
        decode(c, ROOM, n as usize);
    }
}

pub fn all(c: &mut Cases) {
    c.store(Buffer::Target, 0, ROOM, SPARE);
    lengths(c);
    rooms(c);
    each_symbol(c);
    each_place(c);
    several(c);
    noise(c);
}
