// The lines of the tables: rings of each zone, captures, images.
use crate::fdd1541::{self, gcr};
use crate::timing::Case;
use crate::{inputs, pairs};

const EACH_ZONE: [u8; 4] = [1, 18, 25, 35];
// The kinds of image.
const D64: u32 = 0;
const G64: u32 = 1;
const NIB: u32 = 2;

fn rings(disk: &[u8]) -> Vec<Case> {
    let mut cases: Vec<Case> = Vec::new();
    for track in EACH_ZONE {
        cases.push(pairs::scan(format!("scan track {track}"), inputs::ring(disk, track), track));
    }
    cases.push(pairs::scan("scan 7,692 random bytes".to_string(), inputs::random(3, 7692), 1));
    cases.push(pairs::scan("scan 7,692 bytes 55".to_string(), vec![0x55; 7692], 1));
    cases.extend(EACH_ZONE.map(|track| pairs::read(disk, track)));
    for track in EACH_ZONE {
        let sector = gcr::sectors_per_track(track) / 2;
        cases.push(pairs::sector("unique", inputs::ring(disk, track), track, sector, true));
    }
    let window = inputs::window(&inputs::ring(disk, 1));
    cases.push(pairs::sector("consistent", window.clone(), 1, 0, false));
    cases.push(pairs::replace("unique", inputs::ring(disk, 1), 1, 10, true));
    cases.push(pairs::replace("consistent", window, 1, 0, false));
    cases.extend(EACH_ZONE.map(|track| pairs::build(disk, track)));
    cases
}

// An image cleared once more has nothing to change.
fn images(disk: &[u8]) -> Vec<Case> {
    let mut cases = vec![pairs::orbit(disk, 1), pairs::orbit(disk, 35), pairs::decode(disk, 1)];
    cases.push(pairs::decode(disk, inputs::TRACKS));
    cases.push(pairs::encode(disk));
    cases.extend([pairs::master(), pairs::build_all()]);
    let all = [("a D64", disk.to_vec(), D64), ("a G64", inputs::g64(disk), G64), ("a NIB", inputs::nib(disk, 35), NIB)];
    for (name, image, kind) in all {
        let cleared = fdd1541::reclaim::cleared(image.clone(), kind).expect("a good image").image;
        cases.push(pairs::clear(name, image, kind));
        cases.push(pairs::clear(name, cleared, kind));
    }
    cases
}

pub fn all() -> impl Iterator<Item = Case> {
    let disk = inputs::d64();
    rings(&disk).into_iter().chain(images(&disk))
}
