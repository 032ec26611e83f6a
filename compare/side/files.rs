// NIB files: slots asked of good files and of files with every fault; files made of rings.
use crate::asked::{self, HEADER, SLOTS, WINDOW};
use crate::craft::bytes;
use crate::draw::Chooser;
use crate::judge::Judge;
use crate::windows::{any_span, repeated};

const SIGNATURE: &[u8] = b"MNIB-1541-RAW";

// So many different codes of slots, in any order.
fn codes(c: &mut Chooser, many: usize) -> Vec<u8> {
    let mut all: Vec<u8> = (2..=85).collect();
    for k in 0..many {
        let other = c.within(k as u64, 83) as usize;
        all.swap(k, other);
    }
    all.truncate(many);
    all
}

fn file_of(c: &mut Chooser, codes: &[u8], windows: usize) -> Vec<u8> {
    let mut file = vec![0; HEADER];
    file[..13].copy_from_slice(SIGNATURE);
    file[13] = c.one_of(&[1, 1, 0, 3]);
    for (k, &code) in codes.iter().take(120).enumerate() {
        file[16 + 2 * k] = code;
        file[17 + 2 * k] = if c.below(2) == 0 { c.below(4) as u8 } else { c.byte() };
    }
    for k in 0..windows {
        let zone = file[17 + 2 * k.min(119)];
        let n = if c.below(4) == 0 { WINDOW } else { any_span(c, zone) };
        file.extend(repeated(&bytes(c, n)));
    }
    file
}

// One fault, or none; or pairs behind the end of the list, which are not looked at.
fn spoil(c: &mut Chooser, file: &mut Vec<u8>, pairs: usize) {
    let at = 16 + 2 * c.below(pairs as u64 + 1) as usize;
    let behind = (at + 2 + 2 * c.below(5) as usize).min(254);
    let first = file[16];
    match c.below(12) {
        0 => file[at.min(254)] = 1,
        1 => file[at.min(254)] = c.within(86, 255) as u8,
        2 => file[at.min(254)] = first,
        3 => file[at.min(254)] = 0,
        4 => file[behind] = c.byte(),
        5 => file[c.below(16) as usize] ^= 1 << c.below(8),
        6 => file.truncate(c.below(file.len() as u64 + 1) as usize),
        7 => file.truncate(c.one_of(&[0, 1, 13, 15, 16, 255, 256, 257])),
        8 => file.truncate(HEADER + WINDOW * pairs - 1),
        9 => file.extend_from_slice(&[9; 300]),
        _ => {}
    }
}

fn ask_slots(judge: &mut Judge, file: &[u8]) {
    let medium = asked::nib(file);
    let high = [85, 86, 127, 253, 254, 255, 256, 1 << 32, u64::MAX - 2, u64::MAX - 1, u64::MAX];
    for slot in (0..=84).chain(high) {
        judge.slot(file, &medium, slot);
    }
}

fn slots(judge: &mut Judge, c: &mut Chooser, size: u64) {
    judge.about = "slots of NIB files".to_string();
    for k in 0..140 * size {
        let many = if k % 70 == 0 { 84 } else { c.within(1, 5) as usize };
        let list = codes(c, many);
        let mut file = file_of(c, &list, many);
        spoil(c, &mut file, many);
        ask_slots(judge, &file);
    }
    judge.about = "a catalogue to its end".to_string();
    for many in [84, 85, 119, 120] {
        let list: Vec<u8> = (0..many).map(|k| 2 + (k % 84) as u8).collect();
        let file = file_of(c, &list, 84);
        ask_slots(judge, &file);
    }
    judge.about = "no pair, and a first code of each value".to_string();
    let mut file = file_of(c, &[2], 1);
    for code in 0..=255 {
        file[16] = code;
        let medium = asked::nib(&file);
        for slot in [0, 1, 83, 84, u64::from(code).wrapping_sub(2)] {
            judge.slot(&file, &medium, slot);
        }
    }
}

// Lengths of up to 90 slots, few of them present; all 84 now and then.
fn lengths(c: &mut Chooser, full: bool) -> Vec<u64> {
    let many = c.one_of(&[0, 1, 2, 5, 40, 83, 84, 84, 85, 90]);
    let mut list = vec![0; if full { 84 } else { many }];
    if full {
        list.fill_with(|| c.within(1, 40));
    } else if many > 0 {
        for _ in 0..c.below(6) {
            let at = c.below(many as u64) as usize;
            list[at] = c.one_of(&[0, 1, 2, 3, 100, 6250, 7692, 8191, 8192, 8193, 65_535]);
        }
    }
    list
}

// What lengths are told, where they are not those of the rings: one off, too long, a sum that comes round 2^64.
fn mistold(c: &mut Chooser, list: &mut Vec<u64>, joined: &mut Vec<u8>) {
    let Some(at) = list.len().min(SLOTS).checked_sub(1) else { return };
    let at = c.below(at as u64 + 1) as usize;
    match c.below(24) {
        0 => list[at] = list[at].wrapping_add(1),
        1 => list[at] = list[at].wrapping_sub(1),
        2 => joined.push(7),
        3 => drop(joined.pop()),
        4 => {
            joined.resize(joined.len() + 65_536, 3);
            list[at] += 65_536;
        }
        5 if list.len() > 1 => {
            let other = (at + 1) % list.len().min(SLOTS);
            let (a, b) = (1 << 63, c.one_of(&[1 << 63, (1 << 63) - 1]));
            list[at] = list[at].wrapping_add(a);
            list[other] = list[other].wrapping_add(b);
        }
        6 => list[at] = c.next(),
        7 => list[at] = u64::MAX - c.below(3),
        _ => {}
    }
}

fn encodings(judge: &mut Judge, c: &mut Chooser, size: u64) {
    judge.about = "files made of rings".to_string();
    for k in 0..1_200 * size {
        let mut list = lengths(c, k % 60 == 0);
        let total: u64 = list.iter().take(SLOTS).sum();
        let present = list.iter().take(SLOTS).filter(|&&n| n > 0).count();
        let mut joined = bytes(c, total as usize);
        mistold(c, &mut list, &mut joined);
        let many = c.one_of(&[0, 1, 40, 83, 84, 85, 100]);
        let zones = bytes(c, many);
        let full = HEADER + WINDOW * present;
        let spare = c.below(80) as usize;
        let room = c.one_of(&[full, full, full + spare, full - 1, full + WINDOW, 0, 256]);
        if let Ok(file) = judge.encode_nib(&list, &zones, &joined, room) {
            if k % 20 == 1 {
                ask_slots(judge, &file);
            }
        }
    }
}

pub fn all(judge: &mut Judge, c: &mut Chooser, size: u64) {
    slots(judge, c, size);
    encodings(judge, c, size);
}
