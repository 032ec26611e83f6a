// The model of masters: a G64 put together from the public description of both formats, one field behind the other, out of tracks that
// the original builds. And what the original's own G64 code reads out of a master.
use crate::asked::Answer;
use crate::fdd1541::{d64, g64, gcr, reclaim};

const HALF_TRACKS: usize = 84;
const LARGEST: usize = 7_928;

// A disk: the payloads, track after track, and an error byte for each, if it has them.
pub struct Disk<'a> {
    pub tracks: u8,
    payloads: Vec<[u8; 256]>,
    errors: &'a [u8],
}

impl Disk<'_> {
    // None where the original knows no D64 of this size.
    pub fn of(image: &[u8]) -> Option<Disk<'_>> {
        let tracks = reclaim::tracks_of(image)?;
        let (sectors, errors) = image.split_at(d64::track_offset(tracks + 1));
        let payloads = sectors.chunks(256).map(|c| c.try_into().expect("256 bytes")).collect();
        Some(Disk { tracks, payloads, errors })
    }

    // The sectors of a track, and their error bytes, of which there may be none.
    fn on(&self, track: u8) -> (&[[u8; 256]], &[u8]) {
        let from = d64::track_offset(track) / 256;
        let to = from + usize::from(gcr::sectors_per_track(track));
        (&self.payloads[from..to], if self.errors.is_empty() { &[] } else { &self.errors[from..to] })
    }
}

fn spoils(code: u8) -> bool {
    matches!(code, 2 | 3 | 4 | 5 | 9)
}

pub fn master(image: &[u8], room: usize) -> Answer<Vec<u8>> {
    let disk = Disk::of(image).ok_or(3)?;
    let bam = d64::sector_offset(18, 0);
    let (mut offsets, mut speeds, mut entries) = ([0u32; HALF_TRACKS], [0u32; HALF_TRACKS], Vec::new());
    for track in 1..=disk.tracks {
        let half = 2 * usize::from(track) - 2;
        offsets[half] = (12 + 4 * HALF_TRACKS + 4 * HALF_TRACKS + entries.len()) as u32;
        speeds[half] = u32::from(g64::standard_density(track));
        let (payloads, codes) = disk.on(track);
        let ring = gcr::build_track_with_errors(track, payloads, codes, image[bam + 0xA2], image[bam + 0xA3]);
        entries.extend((ring.len() as u16).to_le_bytes());
        entries.extend(&ring);
        entries.extend(vec![0; LARGEST - ring.len()]);
    }
    let mut made = b"GCR-1541".to_vec();
    made.extend([0, HALF_TRACKS as u8]);
    made.extend((LARGEST as u16).to_le_bytes());
    made.extend(offsets.iter().chain(&speeds).flat_map(|n| n.to_le_bytes()));
    made.extend(entries);
    if room < made.len() {
        return Err(7);
    }
    Ok(made)
}

// A G64 by the original's own reader: a ring for each track of the disk and for nothing else, and each sector as the disk has it, but
// for the spoiled ones, which do not read. How many do; or the first fault.
pub fn read_back(disk: &Disk, image: &[u8]) -> Result<usize, String> {
    let ranges = reclaim::ranges_of(image).ok_or("the original refuses its tables")?;
    let mut read = 0;
    for (half, range) in ranges.iter().enumerate() {
        let track = half as u8 / 2 + 1;
        if range.is_some() != (half % 2 == 0 && track <= disk.tracks) {
            return Err(format!("half-track {half}: {range:?}"));
        }
        let Some((at, long)) = *range else { continue };
        let (payloads, codes) = disk.on(track);
        for (sector, payload) in payloads.iter().enumerate() {
            let spoilt = codes.get(sector).is_some_and(|&code| spoils(code));
            if gcr::read_unique(&image[at..at + long], track, sector as u8) != (!spoilt).then_some(*payload) {
                return Err(format!("{track}/{sector}, spoiled: {spoilt}"));
            }
            read += usize::from(!spoilt);
        }
    }
    Ok(read)
}

// The one G64 that the original writes, of its own blank disk; its filling is 55.
pub fn blank() -> (Vec<u8>, Vec<u8>) {
    let mut image = g64::create_formatted();
    for (at, long) in reclaim::ranges_of(&image).expect("its own tables").into_iter().flatten() {
        let filling = &mut image[at + long..at + LARGEST];
        assert!(filling.iter().all(|&byte| byte == 0x55));
        filling.fill(0);
    }
    (d64::create_formatted(), image)
}
