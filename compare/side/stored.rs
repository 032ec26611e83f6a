// The cases of the stored vectors, of any seed: the oracle's rows carried out, and each question put to both sides.
use crate::asked;
use crate::cases;
use crate::judge::Judge;
use crate::machine::{self, Asks};

const KINDS: [&str; 9] = ["block", "build", "scan", "sector", "orbit", "nib", "clear_d64", "clear_g64", "clear_nib"];

// No line is printed: the judge counts.
impl Asks for Judge {
    fn heading(&mut self, row: &str) -> String {
        self.about = row.trim_matches(|c| "#- \n".contains(c)).to_string();
        String::new()
    }

    fn encode_block(&mut self, bytes: &[u8], room: &mut [u8]) -> String {
        Judge::encode_block(self, bytes, room.len());
        String::new()
    }

    fn decode_block(&mut self, code: &[u8], room: &mut [u8]) -> String {
        Judge::decode_block(self, code, room.len());
        String::new()
    }

    fn build(&mut self, ids: [u8; 3], payloads: &[u8], codes: &[u8], room: &mut [u8]) -> String {
        if let Ok(track) = Judge::build(self, ids, payloads, codes, room.len()) {
            room[..track.len()].copy_from_slice(&track);
        }
        String::new()
    }

    fn scan(&mut self, ring: &[u8], track: u8, start: u64, rows: usize) -> String {
        Judge::scan(self, ring, track, start, 2 * rows, asked::SCAN_BYTES);
        String::new()
    }

    fn read(&mut self, ring: &[u8], track: u8, start: u64) -> String {
        Judge::read(self, ring, track, start, 21 * 256, 21);
        String::new()
    }

    fn sector(&mut self, ring: &[u8], track: u8, sector: u8, unique: bool) -> String {
        Judge::sector(self, ring, track, sector, unique);
        String::new()
    }

    fn replace(&mut self, ring: &mut [u8], track: u8, sector: u8, bytes: &[u8; 256], unique: bool) -> String {
        Judge::replace(self, ring, track, sector, bytes, unique);
        String::new()
    }

    fn orbit(&mut self, window: &[u8], zone: u8) -> String {
        Judge::orbit(self, window, zone);
        String::new()
    }

    fn nib(&mut self, file: &[u8]) -> String {
        let medium = asked::nib(file);
        for slot in 0..=84 {
            Judge::slot(self, file, &medium, slot);
        }
        String::new()
    }

    fn slot(&mut self, file: &[u8], slot: u64) -> String {
        Judge::slot(self, file, &asked::nib(file), slot);
        String::new()
    }

    fn encode_nib(&mut self, lengths: &[u64], zones: &[u8], joined: &[u8], room: &mut [u8]) -> String {
        if let Ok(file) = Judge::encode_nib(self, lengths, zones, joined, room.len()) {
            room[..file.len()].copy_from_slice(&file);
        }
        String::new()
    }

    fn clear(&mut self, image: &mut [u8], kind: u32) -> String {
        Judge::clear(self, image, kind);
        String::new()
    }
}

pub fn all(judge: &mut Judge, seed: u64, size: u64) {
    for kind in KINDS {
        machine::run(&cases::of_kind(kind, seed, size), judge);
    }
}
