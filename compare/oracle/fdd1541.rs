// The original's files, each included as it is; the public functions written after it reach what is private in it.
// nib.rs says `crate::fdd1541`, so this module stands at the root of each program.
pub mod constants {
    include!("fdd1541/constants.rs");
}
pub mod gcr {
    include!("fdd1541/gcr.rs");

    pub struct Record {
        pub sector: u8,
        pub place: u64,
        pub payload: [u8; 256],
    }

    pub fn records(ring: &[u8], track: u8, start: u64) -> Vec<Record> {
        scan_sector_records(ring, track, start as usize)
            .into_iter()
            .map(|r| Record { sector: r.sector as u8, place: r.data_start_bit as u64, payload: r.data })
            .collect()
    }

    // A scan and nothing else, for its time.
    pub fn scanned(ring: &[u8], track: u8, start: u64) -> usize {
        std::hint::black_box(scan_sector_records(ring, track, start as usize)).len()
    }

    pub fn read_unique(ring: &[u8], track: u8, sector: u8) -> Option<[u8; 256]> {
        decode_sector_unique(ring, track, sector)
    }

    pub fn read_consistent(ring: &[u8], track: u8, sector: u8) -> Option<[u8; 256]> {
        decode_sector_consistent(ring, track, sector)
    }

    pub fn replace_unique(ring: &mut [u8], track: u8, sector: u8, bytes: &[u8; 256]) -> bool {
        replace_sector_data_unique(ring, track, sector, bytes)
    }

    pub fn replace_consistent(ring: &mut [u8], track: u8, sector: u8, bytes: &[u8; 256]) -> bool {
        replace_sector_data_consistent(ring, track, sector, bytes)
    }

    pub fn capacity(track: u8) -> usize {
        track_capacity(track)
    }

    // Bytes in the code, written at a bit of a ring.
    pub fn write_code(ring: &mut [u8], bit: usize, bytes: &[u8]) {
        let mut code = Vec::new();
        append_gcr(&mut code, bytes);
        write_circular_bytes(ring, bit, &code);
    }

    // The place of a sync end among so many bits.
    pub fn sync_end(ring: &[u8], from: usize, bits: usize) -> Option<usize> {
        find_sync_end(ring, from, bits)
    }

    // Bytes read in the code from a bit of a ring, a multiple of four; none where a symbol is illegal.
    pub fn read_code(ring: &[u8], bit: usize, bytes: usize) -> Option<Vec<u8>> {
        decode_gcr_block(&read_circular_bytes(ring, bit, bytes / 4 * 5), bytes)
    }

    // A block's code, and the bytes of a code's first groups; none where a symbol is illegal or groups are missing.
    pub fn encode_block(bytes: &[u8]) -> Vec<u8> {
        let mut code = Vec::new();
        append_gcr(&mut code, bytes);
        code
    }

    pub fn decode_block(code: &[u8], bytes: usize) -> Option<Vec<u8>> {
        decode_gcr_block(code, bytes)
    }

    pub fn set_bit(ring: &mut [u8], bit: usize, value: u8) {
        write_bit(ring, bit, value);
    }

    pub fn bit(ring: &[u8], bit: usize) -> u8 {
        bit_at(ring, bit)
    }
}
pub mod d64 {
    include!("fdd1541/d64.rs");
}
pub mod g64 {
    include!("fdd1541/g64.rs");
}
pub mod media {
    include!("fdd1541/media.rs");

    pub fn place(track: u8, sector: u8) -> usize {
        sector_offset(track, sector)
    }

    pub fn sectors_to(tracks: u8) -> usize {
        total_sectors(tracks)
    }
}
pub mod nbz {
    include!("fdd1541/nbz.rs");
}
pub mod nib {
    include!("fdd1541/nib.rs");

    pub fn orbit(window: &[u8], zone: u8) -> Vec<u8> {
        recover_orbit(window, zone)
    }
}
pub mod reclaim {
    include!("fdd1541/reclaim.rs");

    pub struct Cleared {
        pub image: Vec<u8>,
        pub free: usize,
        pub changed: usize,
    }

    // Which of the original's own steps refuses first: the size or signature 3, the table 4, 18/0 5, the chain 6.
    pub enum Answer {
        Cleared(Cleared),
        Refused(u8),
    }

    fn answer(result: Option<ReclaimResult>, step: u8) -> Answer {
        match result {
            Some(r) => Answer::Cleared(Cleared { image: r.output, free: r.free_sectors, changed: r.changed_sectors }),
            None => Answer::Refused(step),
        }
    }

    // The tracks of a D64, by its size; and where the rings of a G64 lie, for each of 84 half-tracks.
    pub fn tracks_of(image: &[u8]) -> Option<u8> {
        d64_track_count(image)
    }

    pub fn ranges_of(image: &[u8]) -> Option<Vec<Option<(usize, usize)>>> {
        g64_track_ranges(image)
    }

    // Clearing and nothing else, for its time; the kinds are 0 D64, 1 G64, 2 NIB.
    pub fn cleared(image: Vec<u8>, kind: u32) -> Option<Cleared> {
        let result = match kind {
            0 => reclaim_d64(image),
            1 => reclaim_g64(image),
            _ => reclaim_nib(image),
        };
        result.map(|r| Cleared { image: r.output, free: r.free_sectors, changed: r.changed_sectors })
    }

    pub fn clear_d64(image: &[u8]) -> Answer {
        let step = if d64_track_count(image).is_none() { 3 } else { 6 };
        answer(reclaim_d64(image.to_vec()), step)
    }

    pub fn clear_g64(image: &[u8]) -> Answer {
        let step = if image.len() < G64_HEADER_LEN || !image.starts_with(G64_SIGNATURE) {
            3
        } else if let Some(ranges) = g64_track_ranges(image) {
            match ranges[34] {
                Some((s, n)) if gcr::decode_sector_unique(&image[s..s + n], 18, 0).is_some() => 6,
                _ => 5,
            }
        } else {
            4
        };
        answer(reclaim_g64(image.to_vec()), step)
    }

    pub fn clear_nib(image: &[u8]) -> Answer {
        let step = if image.len() < NIB_HEADER_LENGTH || !image.starts_with(NIB_SIGNATURE) {
            3
        } else if let Some(ranges) = nib_track_ranges(image) {
            match ranges[34] {
                Some((s, n)) if gcr::decode_sector_consistent(&image[s..s + n], 18, 0).is_some() => 6,
                _ => 5,
            }
        } else {
            4
        };
        answer(reclaim_nib(image.to_vec()), step)
    }
}
// What reclaim.rs names and docs/RULES.md leaves out.
pub mod disk_image {
    pub enum ImageFormat {
        D64,
        D7z,
        G64,
        Nib,
        Nbz,
    }
}
pub mod d7z {
    pub fn decode(_bytes: &[u8]) -> Option<Vec<u8>> {
        None
    }

    pub fn encode(_bytes: &[u8]) -> Option<Vec<u8>> {
        None
    }
}
