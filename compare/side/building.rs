// Built tracks: every track with every code; any lists; rooms and payload bytes at their limits.
use crate::craft::{any_track, bytes};
use crate::draw::Chooser;
use crate::fdd1541::gcr;
use crate::judge::Judge;

fn every_code(judge: &mut Judge, c: &mut Chooser) {
    judge.about = "every track and every code".to_string();
    for track in 0..=255 {
        let n = usize::from(gcr::sectors_per_track(track));
        let payloads = bytes(c, 256 * n);
        let ids = [track, c.byte(), c.byte()];
        for code in 0..=255 {
            let _ = judge.build(ids, &payloads, &vec![code; n], gcr::capacity(track));
        }
    }
}

fn any_lists(judge: &mut Judge, c: &mut Chooser, many: u64) {
    judge.about = "any lists and rooms".to_string();
    for _ in 0..many {
        let track = any_track(c);
        let (n, capacity) = (u64::from(gcr::sectors_per_track(track)), gcr::capacity(track));
        let sectors = c.one_of(&[0, 1, n - 1, n, n, n + 1, 40]);
        let odd = c.one_of(&[0, 0, 0, 0, 0, 1, 128, 255]);
        let payloads = bytes(c, (256 * sectors + odd) as usize);
        let many = c.one_of(&[0, 1, n - 1, n, n, n + 1, 60]) as usize;
        let codes: Vec<u8> = (0..many)
            .map(|_| if c.below(4) == 0 { c.byte() } else { c.one_of(&[0, 1, 2, 3, 4, 5, 9, 10, 11, 12]) })
            .collect();
        let spare = c.below(70) as usize;
        let room = c.one_of(&[0, 1, capacity - 1, capacity, capacity, capacity + 1, capacity + spare]);
        let _ = judge.build([track, c.byte(), c.byte()], &payloads, &codes, room);
    }
}

pub fn all(judge: &mut Judge, c: &mut Chooser, size: u64) {
    every_code(judge, c);
    any_lists(judge, c, 4_000 * size);
}
