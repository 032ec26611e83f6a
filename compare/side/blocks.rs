// Blocks: every length, every symbol at every place of a group, codes with one bad symbol and with many, rooms at their limits.
use crate::craft::{bytes, flipped, set};
use crate::draw::Chooser;
use crate::fdd1541::gcr;
use crate::judge::Judge;

// A room: what is needed, somewhat less, or more.
fn room_for(c: &mut Chooser, need: usize) -> usize {
    match c.below(4) {
        0 => need.saturating_sub(c.within(1, 6) as usize),
        1 => need + c.within(1, 9) as usize,
        _ => need,
    }
}

fn encode(judge: &mut Judge, c: &mut Chooser, block: &[u8]) {
    let room = room_for(c, block.len().div_ceil(4) * 5);
    judge.encode_block(block, room);
}

fn decode(judge: &mut Judge, c: &mut Chooser, code: &[u8]) {
    let room = room_for(c, code.len() / 5 * 4);
    judge.decode_block(code, room);
}

// Each of the 32 symbols at each of a group's eight places, the others legal; and with another such group before it or behind.
fn every_symbol(judge: &mut Judge, c: &mut Chooser) {
    judge.about = "blocks, every symbol at every place".to_string();
    for at in 0..8 {
        for symbol in 0..32u8 {
            for groups in 1..=3 {
                for spoilt in 0..groups {
                    let mut code = gcr::encode_block(&bytes(c, 4 * groups));
                    for i in 0..5 {
                        gcr::set_bit(&mut code, 40 * spoilt + 5 * at + i, symbol >> (4 - i) & 1);
                    }
                    judge.decode_block(&code, 4 * groups);
                }
            }
        }
    }
}

// Every length to 40 bytes, and those about a header's and a data block's; each with every room about what is needed.
fn every_length(judge: &mut Judge, c: &mut Chooser) {
    judge.about = "blocks, every length".to_string();
    for n in (0..=40).chain(255..=264).chain(320..=330) {
        let block = bytes(c, n);
        let code = gcr::encode_block(&block);
        for room in [0, code.len().saturating_sub(1), code.len(), code.len() + 1, code.len() + 7] {
            judge.encode_block(&block, room);
        }
        // a code of n bytes: whole groups, and up to four bytes that are not looked at
        let part: Vec<u8> = code.iter().chain(&[0; 5]).copied().take(n).collect();
        let need = n / 5 * 4;
        for room in [0, need.saturating_sub(1), need, need + 1, need + 7] {
            judge.decode_block(&part, room);
            judge.decode_block(&block, room);
        }
    }
}

// A block, coded, and its code as it is or with some of its bits changed.
fn there_and_back(judge: &mut Judge, c: &mut Chooser) {
    let n = if c.below(4) == 0 { c.one_of(&[8, 260]) } else { c.within(1, 120) } as usize;
    let block = bytes(c, n);
    encode(judge, c, &block);
    let mut code = gcr::encode_block(&block);
    match c.below(4) {
        0 => {}
        1 => flipped(c, &mut code),
        2 => {
            let bits = 8 * code.len() as u64;
            let (bit, value) = (c.below(bits), c.below(2) as u8);
            let most = c.one_of(&[1, 4, 5, 12]);
            let long = c.within(1, most).min(bits - bit);
            set(&mut code, bit, long, value);
        }
        _ => code.truncate(c.below(code.len() as u64 + 1) as usize),
    }
    decode(judge, c, &code);
}

fn noise(judge: &mut Judge, c: &mut Chooser) {
    let n = c.within(0, 60) as usize;
    let code = bytes(c, n);
    decode(judge, c, &code);
}

pub fn all(judge: &mut Judge, c: &mut Chooser, size: u64) {
    every_symbol(judge, c);
    every_length(judge, c);
    judge.about = "blocks, there and back".to_string();
    for _ in 0..20_000 * size {
        there_and_back(judge, c);
    }
    judge.about = "blocks, noise".to_string();
    for _ in 0..20_000 * size {
        noise(judge, c);
    }
}
