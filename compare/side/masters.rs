// Masters: disks of every size, with any ids and error bytes, and rooms about what is needed.
use crate::craft::bytes;
use crate::draw::Chooser;
use crate::fdd1541::media;
use crate::judge::Judge;
use crate::whole;

// As much as the longest master takes, and some more.
const ROOM: usize = 334_000;

fn size(tracks: u8) -> usize {
    684 + 7_930 * usize::from(tracks)
}

// Error bytes: all well, those with a meaning, any, or the same for all sectors.
fn errors(c: &mut Chooser, many: usize) -> Vec<u8> {
    let known = [1, 1, 1, 1, 1, 1, 2, 3, 4, 5, 9, 0x0B, 0, 6, 7, 0x0F, 0xFF];
    match c.below(6) {
        0 => vec![1; many],
        1 => bytes(c, many),
        2 => vec![c.one_of(&known); many],
        _ => (0..many).map(|_| c.one_of(&known)).collect(),
    }
}

fn disk(c: &mut Chooser, tracks: u8, with_errors: bool) -> Vec<u8> {
    let sectors = media::sectors_to(tracks);
    let mut image = bytes(c, 256 * sectors);
    for _ in 0..c.below(40) {
        let at = 256 * c.below(sectors as u64) as usize;
        let byte = c.one_of(&[0, 0x55, 0xFF, 7, 8]);
        image[at..at + 256].fill(byte);
    }
    if with_errors {
        image.extend(errors(c, sectors));
    }
    image
}

// The model is held to the original's own writer, on the one disk that it writes.
fn blank(judge: &mut Judge) {
    judge.about = "the original's blank disk".to_string();
    let (image, wanted) = whole::blank();
    assert!(whole::master(&image, ROOM) == Ok(wanted), "the model of masters is not as the original writes");
    judge.master(&image, ROOM);
}

// Every track count, with and without error bytes, and lengths about each.
fn every_size(judge: &mut Judge, c: &mut Chooser) {
    judge.about = "a master of every size, and about it".to_string();
    for tracks in 33..=43 {
        for with_errors in [false, true] {
            let made = disk(c, tracks, with_errors);
            for n in made.len() - 2..=made.len() + 2 {
                let mut image = made.clone();
                image.resize(n, 1);
                judge.master(&image, c.one_of(&[ROOM, size(tracks)]));
                if n != made.len() {
                    judge.master(&image, c.below(size(tracks) as u64) as usize);
                }
            }
        }
    }
}

pub fn all(judge: &mut Judge, c: &mut Chooser, many: u64) {
    blank(judge);
    every_size(judge, c);
    judge.about = "masters".to_string();
    for k in 0..32 * many {
        let tracks = 35 + (k % 8) as u8;
        let image = disk(c, tracks, k / 8 % 4 != 0);
        let (full, spare) = (size(tracks), c.below(500) as usize);
        judge.master(&image, c.one_of(&[full, full, full + spare]));
        judge.master(&image, c.one_of(&[full - 1, full - 1, size(tracks - 1), 684, 12, 1, 0]));
    }
}
