//! The wrapper held to what it says, with refusals: `rustc --test`.
mod fielbmaru;

use fielbmaru::*;

fn built(track: u8, payloads: &[u8]) -> Vec<u8> {
    let mut out = vec![0; 7692];
    build_track(track, payloads, &[], 0x41, 0x30, &mut out).unwrap().to_vec()
}

/// A BAM that has the sectors of track 1 free, and a directory of one sector.
fn disk_track() -> Vec<u8> {
    let mut payloads = vec![0; 512];
    payloads[..2].copy_from_slice(&[18, 1]);
    payloads[5..8].copy_from_slice(&[0xFF, 0xFF, 0x1F]);
    payloads
}

#[test]
fn blocks_of_every_length() {
    let bytes: Vec<u8> = (0..261).map(|i| (7 * i + i / 256) as u8).collect();
    for n in 0..=260 {
        let (mut code, mut back) = ([0xAA; 330], [0xAA; 264]);
        assert_eq!(encode_block(&bytes[..n], &mut code).unwrap().len(), code_bytes(n));
        let coded = code_bytes(n);
        assert!(code[coded..].iter().all(|&b| b == 0xAA));
        assert_eq!(decode_block(&code[..coded], &mut back).unwrap().len(), block_bytes(coded));
        assert_eq!(back[..n], bytes[..n]);
        assert!(back[n..block_bytes(coded)].iter().all(|&b| b == 0));
        assert!(back[block_bytes(coded)..].iter().all(|&b| b == 0xAA));
        if n > 0 {
            assert_eq!(encode_block(&bytes[..n], &mut code[..coded - 1]), Err(Refusal::NoRoom));
            let short = &mut back[..block_bytes(coded) - 1];
            assert_eq!(decode_block(&code[..coded], short), Err(NotDecoded::Refused(Refusal::NoRoom)));
        }
    }
}

/// The symbols of a header and of a data block, each zeroed, are told by their indexes; of several, the first.
#[test]
fn symbols_outside_the_table() {
    for n in [8, 260] {
        let (mut code, mut back) = (vec![0; code_bytes(n)], vec![0xAA; n]);
        encode_block(&vec![0; n], &mut code).unwrap();
        for k in [0, 1, n, 2 * n - 2, 2 * n - 1] {
            let mut bad = code.clone();
            (5 * k..5 * k + 5).for_each(|bit| bad[bit / 8] &= !(0x80 >> (bit % 8)));
            assert_eq!(decode_block(&bad, &mut back), Err(NotDecoded::IllegalSymbol(k)));
            *bad.last_mut().unwrap() = 0;
            assert_eq!(decode_block(&bad, &mut back), Err(NotDecoded::IllegalSymbol(k.min(2 * n - 2))));
            assert!(back.iter().all(|&b| b == 0xAA));
        }
        code.extend([0; 4]);
        assert_eq!(decode_block(&code, &mut back), Ok(&mut vec![0; n][..]));
    }
    let why = NotDecoded::IllegalSymbol(7);
    assert_eq!((why.to_string(), Refusal::from(why)), ("refused 13 (IllegalSymbol) at symbol 7".into(), Refusal::IllegalSymbol));
}

#[test]
fn sizes_of_every_track() {
    for track in 0..=255 {
        let mut ring = vec![0xAA; track_bytes(track) - 1];
        assert_eq!(build_track(track, &[], &[], 1, 2, &mut ring), Err(Refusal::NoRoom));
        assert!(ring.iter().all(|&b| b == 0xAA));
        ring.push(0xAA);
        build_track(track, &[], &[], 1, 2, &mut ring).unwrap();
        let (mut payloads, mut statuses) = (vec![1; 256 * sectors(track)], vec![Status::NoSync; sectors(track)]);
        assert_eq!(decode_track(&ring, track, 99, &mut payloads, &mut statuses), Ok((sectors(track), None)));
        assert!(payloads.iter().all(|&b| b == 0) && statuses.iter().all(|&s| s == Status::HandedOut));
        assert_eq!(decode_track(&ring, track, 0, &mut payloads[1..], &mut statuses), Err(Refusal::NoRoom));
        assert_eq!(decode_track(&ring, track, 0, &mut payloads, &mut statuses[1..]), Err(Refusal::NoRoom));
    }
}

/// Each error code is read back as its status; 3 as 2, unless no sector has a sync.
#[test]
fn statuses_of_codes() {
    use Status::*;
    let (codes, told) = ([1, 2, 3, 4, 5, 9, 11], [HandedOut, NoHeader, NoHeader, NoData, FalseData, FalseHeader, HandedOut]);
    let (mut ring, mut payloads, mut statuses) = ([0; 7142], [1; 256 * 19], [NoSync; 19]);
    build_track(18, &[7; 256 * 19], &codes, 1, 2, &mut ring).unwrap();
    assert_eq!(decode_track(&ring, 18, 777, &mut payloads, &mut statuses), Ok((19 - 5, None)));
    assert_eq!(statuses[..7], told);
    assert!(statuses[7..].iter().all(|&s| s == HandedOut));
    for (sector, payload) in payloads.chunks(256).enumerate() {
        assert!(payload.iter().all(|&b| b == if statuses[sector] == HandedOut { 7 } else { 0 }));
    }
    assert_eq!(statuses[3..6].iter().map(|s| s.to_string()).collect::<Vec<_>>(), ["no data block", "data checksum", "header checksum"]);
    build_track(18, &[], &[3; 19], 1, 2, &mut ring).unwrap();
    assert_eq!(decode_track(&ring, 18, 777, &mut payloads, &mut statuses), Ok((0, None)));
    assert!(statuses.iter().all(|&s| s == NoSync));
}

/// Five bits forced to zero, and the first symbol outside the table that is then met, from one bit and from another.
#[test]
fn first_bad_symbols() {
    let bad = |block, symbol, bit| Some(BadSymbol { block, symbol, bit });
    let (mut payloads, mut statuses) = ([0; 256 * 21], [Status::NoSync; 21]);
    for (from, start, known) in [
        (100, 0, bad(Block::Header, 12, 100)),
        (98, 0, bad(Block::Header, 11, 95)),
        (267, 0, bad(Block::Data, 7, 267)),
        (267, 60, bad(Block::Header, 7, 267)),
    ] {
        let mut ring = [0; 7692];
        build_track(1, &[], &[], 0, 0, &mut ring).unwrap();
        (from..from + 5).for_each(|bit| ring[bit / 8] &= !(0x80 >> (bit % 8)));
        assert_eq!(decode_track(&ring, 1, start, &mut payloads, &mut statuses).unwrap().1, known);
        assert_eq!(scan_records(&ring, 1, start, &mut [Record::ZEROS; SCAN_RECORDS]).unwrap().1, known);
        assert_eq!(scan(&ring, 1, start, &mut [0; SCAN_ROWS], &mut [0; SCAN_PAYLOADS]).unwrap().1, known);
    }
    assert_eq!(decode_track(&[0xFF, 0xFE], 1, 0, &mut payloads, &mut statuses), Ok((0, bad(Block::Header, 1, 4))));
}

#[test]
fn one_sector() {
    let mut ring = built(18, &[7; 512]);
    assert_eq!(build_track(18, &[7; 255], &[], 1, 2, &mut [0; 7142]), Err(Refusal::WrongSum));
    assert_eq!(read_unique(&ring, 18, 1), Ok([7; 256]));
    assert_eq!(read_consistent(&ring, 18, 2), Ok([0; 256]));
    assert_eq!(read_unique(&[], 18, 0), Err(Refusal::RingEmpty));
    assert_eq!(read_unique(&[0; 65536], 18, 0), Err(Refusal::RingTooLong));
    assert_eq!(read_consistent(&ring, 17, 0), Err(Refusal::NoRecord));
    let before = ring.clone();
    assert_eq!(replace_unique(&mut ring, 18, 19, &[9; 256]), Err(Refusal::NoRecord));
    assert_eq!(ring, before);
    replace_unique(&mut ring, 18, 0, &[9; 256]).unwrap();
    assert_eq!(read_unique(&ring, 18, 0), Ok([9; 256]));
    assert_eq!((&ring[..29], &ring[354..]), (&before[..29], &before[354..]));
    replace_consistent(&mut ring, 18, 0, &[7; 256]).unwrap();
    assert_eq!(ring, before);
}

#[test]
fn two_copies() {
    let mut window = built(31, &[5; 256]);
    window.extend_from_within(..700);
    assert_eq!(read_unique(&window, 31, 0), Err(Refusal::Ambiguous));
    assert_eq!(read_consistent(&window, 31, 0), Ok([5; 256]));
    replace_consistent(&mut window, 31, 0, &[6; 256]).unwrap();
    assert_eq!(read_consistent(&window, 31, 0), Ok([6; 256]));
    assert_eq!(window[..700], window[6250..]);
}

#[test]
fn records_of_a_ring() {
    let ring = built(31, &[5; 256]);
    let (mut rows, mut payloads) = ([77; SCAN_ROWS], [77; SCAN_PAYLOADS]);
    assert_eq!(scan(&ring, 31, 0, &mut rows[1..], &mut payloads), Err(Refusal::NoRoom));
    assert_eq!(scan(&ring, 31, 1600, &mut rows, &mut payloads), Ok((17, None)));
    assert_eq!((rows[0], rows[1]), (1, 8 * (368 + 29)));
    assert_eq!((rows[32], rows[33]), (0, 8 * (6250 + 29)));
    assert_eq!(payloads[256 * 16..256 * 17], [5; 256]);
    assert!(rows[34..].iter().all(|&n| n == 77) && payloads[256 * 17..].iter().all(|&b| b == 77));
}

#[test]
fn records_as_structs() {
    let ring = built(31, &[5; 256]);
    let (mut rows, mut payloads) = ([77; SCAN_ROWS], [77; SCAN_PAYLOADS]);
    let lent = Record { sector: 77, place: 77, payload: [77; 256] };
    let mut records = [lent; SCAN_RECORDS + 1];
    assert_eq!(scan_records(&ring, 31, 0, &mut records[..SCAN_RECORDS - 1]), Err(Refusal::NoRoom));
    assert_eq!(scan_records(&[], 31, 0, &mut records), Err(Refusal::RingEmpty));
    assert!(records.iter().all(|record| *record == lent));
    assert_eq!(scan(&ring, 31, 1600, &mut rows, &mut payloads), Ok((17, None)));
    assert_eq!(scan_records(&ring, 31, 1600, &mut records), Ok((17, None)));
    for (n, record) in records[..17].iter().enumerate() {
        assert_eq!((record.sector, record.place), (rows[2 * n], rows[2 * n + 1]));
        assert_eq!(record.payload, payloads[256 * n..256 * (n + 1)]);
    }
    assert!(records[17..].iter().all(|record| *record == lent));
    assert_eq!(std::mem::size_of::<Record>(), 272);
}

#[test]
fn nib_files() {
    let mut tracks = [built(1, &[5; 256 * 21]), built(18, &disk_track())];
    let mut lengths = [0; SLOTS];
    lengths[0] = 7692;
    lengths[34] = 7142;
    let mut zones = [0; SLOTS];
    zones[0] = 3;
    zones[34] = 2;
    let rings = tracks.concat();
    let mut file = vec![0; NIB_HEAD + 2 * WINDOW];
    assert_eq!(encode_nib(&lengths, &zones, &rings[1..], &mut file), Err(Refusal::WrongSum));
    assert_eq!(encode_nib(&[], &zones, &[], &mut file), Err(Refusal::NoRing));
    assert_eq!(encode_nib(&lengths, &zones, &rings, &mut file[1..]), Err(Refusal::NoRoom));
    assert_eq!(encode_nib(&lengths, &zones, &rings, &mut file), Ok(file.len()));
    let slot = nib_slot(&file, 34).unwrap().unwrap();
    assert_eq!((slot.at, slot.zone, slot.ring), (NIB_HEAD + WINDOW, 2, &tracks[1][..]));
    assert_eq!(nib_slot(&file, 1), Ok(None));
    assert_eq!(nib_slot(&file, 84), Err(Refusal::WrongEntries));
    assert_eq!(nib_slot(&file[1..], 0), Err(Refusal::WrongImage));
    assert_eq!(orbit(&file[NIB_HEAD..NIB_HEAD + WINDOW], 3).len(), 7692);
    assert_eq!(orbit(&[0; WINDOW], 0).len(), 6247);
    assert_eq!(orbit(&file, 0), &[]);
    assert_eq!(clear_nib(&mut file), Ok(Cleared { free_sectors: 21, changed: 21 }));
    assert_eq!(clear_nib(&mut tracks[0]), Err(Refusal::WrongImage));
}

#[test]
fn images_cleared() {
    let mut d64 = vec![5; 174848];
    assert_eq!(clear_d64(&mut d64), Err(Refusal::WrongLink));
    d64[91392..91392 + 512].copy_from_slice(&disk_track());
    assert_eq!(clear_d64(&mut d64), Ok(Cleared { free_sectors: 21, changed: 21 }));
    assert!(d64[..256 * 21].iter().all(|&b| b == 0) && d64[256 * 21..91392].iter().all(|&b| b == 5));
    assert_eq!(clear_d64(&mut d64), Ok(Cleared { free_sectors: 21, changed: 0 }));
    assert_eq!(clear_d64(&mut d64[1..]), Err(Refusal::WrongImage));

    let mut g64 = b"GCR-1541\0".to_vec();
    g64.extend([84, 0xF8, 0x1E]);
    g64.resize(12 + 8 * 84, 0);
    assert_eq!(clear_g64(&mut g64), Err(Refusal::NoDirectory));
    for (half, ring) in [(0, built(1, &[5; 256 * 21])), (34, built(18, &disk_track()))] {
        let place = g64.len() as u32;
        g64[12 + 4 * half..16 + 4 * half].copy_from_slice(&place.to_le_bytes());
        g64.extend((ring.len() as u16).to_le_bytes());
        g64.extend(ring);
    }
    assert_eq!(clear_g64(&mut g64), Ok(Cleared { free_sectors: 21, changed: 21 }));
    assert_eq!(clear_g64(&mut d64), Err(Refusal::WrongImage));
}

/// A disk of so many tracks, with error bytes or without: each sector holds its own number, and the ids are "M2".
fn disk(tracks: u8, errors: &[u8]) -> Vec<u8> {
    let count: usize = (1..=tracks).map(sectors).sum();
    let mut d64: Vec<u8> = (0..256 * count).map(|i| (i / 256 + i / 65536) as u8).collect();
    d64[256 * 357 + 0xA2..256 * 357 + 0xA4].copy_from_slice(b"M2");
    d64.extend(errors.iter().cycle().take(if errors.is_empty() { 0 } else { count }));
    d64
}

/// Where a track's length stands in a master, the lower byte first; its ring follows.
fn ring_in(g64: &[u8], track: u8) -> &[u8] {
    let at = 684 + 7930 * (track as usize - 1);
    let long = usize::from(g64[at]) + 256 * usize::from(g64[at + 1]);
    &g64[at + 2..at + 2 + long]
}

#[test]
fn masters_of_every_size() {
    let mut out = vec![0xAA; G64_MOST + 1];
    for (tracks, errors) in (35..=42).flat_map(|tracks| [(tracks, &[][..]), (tracks, &[1, 2, 3, 4, 5, 9, 11, 0, 6])]) {
        let (d64, size) = (disk(tracks, errors), g64_bytes(tracks));
        out.fill(0xAA);
        assert_eq!(d64_to_g64(&d64[1..], &mut []), Err(Refusal::WrongImage));
        assert_eq!(d64_to_g64(&d64, &mut out[..size - 1]), Err(Refusal::NoRoom));
        assert!(out.iter().all(|&b| b == 0xAA));
        assert_eq!(d64_to_g64(&d64, &mut out), Ok(size));
        assert!(out[size..].iter().all(|&b| b == 0xAA));
        let (mut place, codes) = (0, d64[256 * (1..=tracks).map(sectors).sum::<usize>()..].to_vec());
        for track in 1..=tracks {
            let (count, ring) = (sectors(track), ring_in(&out, track));
            assert_eq!(ring.len(), track_bytes(track));
            let (mut payloads, mut statuses) = (vec![0; 256 * count], vec![Status::NoSync; count]);
            decode_track(ring, track, 0, &mut payloads, &mut statuses).unwrap();
            for (payload, status) in payloads.chunks(256).zip(statuses) {
                let spoilt = matches!(codes.get(place), Some(2 | 3 | 4 | 5 | 9));
                assert_eq!(status != Status::HandedOut, spoilt);
                assert!(spoilt || payload == &d64[256 * place..256 * (place + 1)]);
                place += 1;
            }
        }
    }
}

/// Bytes worked out by hand, the ids in the headers, and clearing, which finds the directory of a master where the D64 has it.
#[test]
fn a_master_is_a_g64() {
    let mut d64 = disk(35, &[]);
    d64[91392..91392 + 512].copy_from_slice(&disk_track());
    d64[91392 + 0xA2..91392 + 0xA4].copy_from_slice(b"M2");
    let mut g64 = vec![0; g64_bytes(35)];
    assert_eq!(d64_to_g64(&d64, &mut g64), Ok(278234));
    assert_eq!(g64[..16], *b"GCR-1541\0\x54\xF8\x1E\xAC\x02\0\0");
    assert_eq!((&g64[20..24], &g64[148..152]), (&[0xA6, 0x21, 0, 0][..], &[0x46, 0x11, 2, 0][..]));
    assert_eq!((&g64[348..352], &g64[684..686]), (&[3, 0, 0, 0][..], &[0x0C, 0x1E][..]));
    let mut header = [0; 8];
    decode_block(&ring_in(&g64, 18)[5..15], &mut header).unwrap();
    assert_eq!(header, [8, 18 ^ b'M' ^ b'2', 0, 18, b'2', b'M', 0x0F, 0x0F]);
    assert_eq!(clear_g64(&mut g64), Ok(Cleared { free_sectors: 21, changed: 20 }));
}

#[test]
fn refusals_have_their_numbers() {
    assert_eq!(Refusal::RingEmpty as u64, 1);
    assert_eq!(Refusal::IllegalSymbol.to_string(), "refused 13 (IllegalSymbol)");
    for number in (1..=8).chain(10..=13) {
        assert_eq!(Refusal::of(number) as u64, number);
    }
    // 9 is not used
    assert_eq!([0, 9, 14, u64::MAX].map(Refusal::of), [Refusal::Unknown; 4]);
}
