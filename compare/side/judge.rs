// Asks both sides the same, and compares the answer's number, every value told, and every byte and number lent, with an
// edge around it. The original's answer is worded by oracle/asked.rs.
use crate::asked::{self, Answer, Scan};
use crate::fdd1541::{gcr, nib};
use crate::lent::Lent;
use crate::port;
use crate::symbols;
use crate::tally::{Function, Tally};
use crate::whole;

pub struct Judge {
    pub tally: Tally,
    // which inputs are at work, for the description of one that differs
    pub about: String,
    salt: u64,
    rows: Lent<u64>,
    payloads: Lent<u8>,
    records: Lent<u64>,
}

// The rooms of scanning are made once, with as much spare room as is ever lent.
const SPARE: usize = 64;

// The number that was wanted, how many records, sectors or the like go with it, and whether the other side said the same.
struct Verdict {
    number: u64,
    alone: bool,
    things: usize,
    same: bool,
}

fn number_of<T>(answer: &Answer<T>) -> u64 {
    answer.as_ref().err().map_or(0, |&n| u64::from(n))
}

// Refusals 2, 7 and 10 are ours alone, and 9 if it ever came.
fn verdict<T>(answer: &Answer<T>, same: bool, things: impl Fn(&T) -> usize) -> Verdict {
    Verdict {
        number: number_of(answer),
        alone: matches!(answer, Err(2 | 7 | 9 | 10)),
        things: answer.as_ref().map_or(0, things),
        same,
    }
}

fn shown(bytes: &[u8]) -> String {
    let start: String = bytes.iter().take(24).map(|b| format!("{b:02X}")).collect();
    format!("{} bytes {start}{}", bytes.len(), if bytes.len() > 24 { ".." } else { "" })
}

// The four numbers that a scan tells.
fn four(told: &mut [u64]) -> port::Told<'_> {
    let [things, block, symbol, bit] = told else { unreachable!() };
    [things, block, symbol, bit]
}

fn asked_of(ring: &[u8], track: u8, start: u64, want: u64, number: u64, told: &mut Lent<u64>) -> String {
    let (given, wanted) = (told.given().to_vec(), told.want().to_vec());
    let ring = shown(ring);
    format!("track {track}, start {start}, ring {ring}: {number} for {want}, told {given:?} for {wanted:?}")
}

impl Judge {
    pub fn new(salt: u64) -> Judge {
        Judge {
            tally: Tally::new(),
            about: String::new(),
            salt,
            rows: Lent::room(asked::SCAN_NUMBERS + SPARE, salt),
            payloads: Lent::room(asked::SCAN_BYTES + SPARE, salt),
            records: Lent::room(port::RECORD_NUMBERS * (asked::RECORDS + SPARE), salt),
        }
    }

    fn salt(&mut self) -> u64 {
        self.salt = self.salt.wrapping_add(0x1_0001);
        self.salt
    }

    fn numbers(&mut self, n: usize) -> Lent<u64> {
        Lent::room(n, self.salt())
    }

    fn tell(&mut self, function: Function, v: Verdict, words: impl Fn() -> String, bytes: &[u8]) {
        self.tally.count(function, v.number, v.alone, v.things);
        if !v.same {
            let words = format!("{}: {}", self.about, words());
            self.tally.differs(function, words, bytes);
        }
    }

    pub fn build(&mut self, ids: [u8; 3], payloads: &[u8], codes: &[u8], room: usize) -> Answer<Vec<u8>> {
        let answer = asked::build(ids[0], payloads, codes, ids[1], ids[2], room);
        let mut out = Lent::room(room, self.salt());
        if let Ok(track) = &answer {
            out.want()[..track.len()].copy_from_slice(track);
        }
        let kept = (payloads.to_vec(), codes.to_vec());
        let number = port::build(ids, payloads, codes, out.given());
        let same = number == number_of(&answer) && out.as_wanted() && kept.0 == payloads && kept.1 == codes;
        let words = || {
            let (want, fault) = (number_of(&answer), out.first_fault());
            let lists = format!("payloads {}, codes {}", shown(payloads), shown(codes));
            format!("track and ids {ids:?}, {lists}, room {room}: {number} for {want}, fault at {fault:?}")
        };
        self.tell(Function::Build, verdict(&answer, same, |_| 1), words, payloads);
        answer
    }

    // A scan into rows and payloads, for which so many numbers and bytes are lent; and the same into records, of which as many
    // are lent as there are rows.
    pub fn scan(&mut self, ring: &[u8], track: u8, start: u64, numbers: usize, bytes: usize) -> Vec<gcr::Record> {
        let rows = numbers >= asked::SCAN_NUMBERS;
        let room = rows && bytes >= asked::SCAN_BYTES;
        let answer = asked::scan(ring, track, start, room);
        self.scan_rows(ring, track, start, [numbers, bytes], &answer);
        if room == rows {
            self.scan_records(ring, track, start, numbers / 2, &answer);
        } else {
            self.scan_records(ring, track, start, numbers / 2, &asked::scan(ring, track, start, rows));
        }
        answer.map_or_else(|_| Vec::new(), |scan| scan.records)
    }

    // What is told beside rows and payloads: how many there are, and the first bad symbol.
    fn told(&mut self, things: usize, bad: [u64; 3]) -> Lent<u64> {
        let mut told = self.numbers(4);
        told.want().copy_from_slice(&[things as u64, bad[0], bad[1], bad[2]]);
        self.tally.bad_symbol(bad[0]);
        told
    }

    // The rooms serve again until they are written.
    fn scan_rows(&mut self, ring: &[u8], track: u8, start: u64, room: [usize; 2], answer: &Answer<Scan>) {
        self.rows.lend(room[0]);
        self.payloads.lend(room[1]);
        let mut told = match answer {
            Ok(scan) => self.told(scan.records.len(), scan.bad),
            Err(_) => self.numbers(4),
        };
        for (k, record) in answer.iter().flat_map(|scan| &scan.records).enumerate() {
            self.rows.want()[2 * k..2 * k + 2].copy_from_slice(&[u64::from(record.sector), record.place]);
            self.payloads.want()[256 * k..256 * k + 256].copy_from_slice(&record.payload);
        }
        let kept = ring.to_vec();
        let (rows, payloads) = (self.rows.given(), self.payloads.given());
        let number = port::scan(ring, track, start, rows, payloads, four(told.given()));
        let lent = told.as_wanted() && self.rows.as_wanted() && self.payloads.as_wanted();
        let same = number == number_of(answer) && lent && kept == ring;
        let faults = [self.rows.first_fault(), self.payloads.first_fault()];
        let words = asked_of(ring, track, start, number_of(answer), number, &mut told);
        let v = verdict(answer, same, |scan| scan.records.len());
        let written = v.things > 0;
        self.tell(Function::Scan, v, || format!("{words}, rooms {room:?}, faults at {faults:?}"), ring);
        if !same || written {
            let salt = self.salt();
            self.rows = Lent::room(asked::SCAN_NUMBERS + SPARE, salt);
            self.payloads = Lent::room(asked::SCAN_BYTES + SPARE, salt);
        }
    }

    fn scan_records(&mut self, ring: &[u8], track: u8, start: u64, records: usize, answer: &Answer<Scan>) {
        self.records.lend(port::RECORD_NUMBERS * records);
        let mut told = match answer {
            Ok(scan) => self.told(scan.records.len(), scan.bad),
            Err(_) => self.numbers(4),
        };
        let places = self.records.want().chunks_mut(port::RECORD_NUMBERS);
        for (place, record) in places.zip(answer.iter().flat_map(|scan| &scan.records)) {
            (place[0], place[1]) = (u64::from(record.sector), record.place);
            for (number, eight) in place[2..].iter_mut().zip(record.payload.chunks(8)) {
                *number = u64::from_ne_bytes(eight.try_into().expect("eight bytes"));
            }
        }
        let kept = ring.to_vec();
        let number = port::scan_records(ring, track, start, self.records.given(), four(told.given()));
        let same = number == number_of(answer) && told.as_wanted() && self.records.as_wanted() && kept == ring;
        let fault = self.records.first_fault();
        let words = asked_of(ring, track, start, number_of(answer), number, &mut told);
        let v = verdict(answer, same, |scan| scan.records.len());
        let written = v.things > 0;
        self.tell(Function::ScanRecords, v, || format!("{words}, room {records}, fault at {fault:?}"), ring);
        if !same || written {
            self.records = Lent::room(port::RECORD_NUMBERS * (asked::RECORDS + SPARE), self.salt());
        }
    }

    pub fn read(&mut self, ring: &[u8], track: u8, start: u64, bytes: usize, status_bytes: usize) {
        let n = usize::from(gcr::sectors_per_track(track));
        let answer = asked::read(ring, track, start, bytes >= 256 * n && status_bytes >= n);
        let mut payloads = Lent::room(bytes, self.salt());
        let mut statuses = Lent::room(status_bytes, self.salt());
        let mut told = match &answer {
            Ok(read) => self.told(read.found(), read.bad),
            Err(_) => self.numbers(4),
        };
        if let Ok(read) = &answer {
            for (k, sector) in read.sectors.iter().enumerate() {
                payloads.want()[256 * k..256 * k + 256].copy_from_slice(&sector.unwrap_or([0; 256]));
            }
            statuses.want()[..n].copy_from_slice(&read.statuses);
            self.tally.statuses(&read.statuses);
        }
        let kept = ring.to_vec();
        let number = port::read(ring, track, start, payloads.given(), statuses.given(), four(told.given()));
        let lent = payloads.as_wanted() && statuses.as_wanted() && told.as_wanted();
        let same = number == number_of(&answer) && lent && kept == ring;
        let words = asked_of(ring, track, start, number_of(&answer), number, &mut told);
        let more = || {
            let (rooms, faults) = ([bytes, status_bytes], [payloads.first_fault(), statuses.first_fault()]);
            format!("{words}, rooms {rooms:?}, faults at {faults:?}")
        };
        self.tell(Function::Read, verdict(&answer, same, asked::Track::found), more, ring);
    }

    pub fn encode_block(&mut self, bytes: &[u8], room: usize) {
        let answer = asked::encode_block(bytes, room);
        let mut out = Lent::room(room, self.salt());
        if let Ok(code) = &answer {
            out.want()[..code.len()].copy_from_slice(code);
        }
        let kept = bytes.to_vec();
        let number = port::encode_block(bytes, out.given());
        let same = number == number_of(&answer) && out.as_wanted() && kept == bytes;
        let words = || {
            let (want, fault) = (number_of(&answer), out.first_fault());
            format!("{}, room {room}: {number} for {want}, fault at {fault:?}", shown(bytes))
        };
        self.tell(Function::EncodeBlock, verdict(&answer, same, Vec::len), words, bytes);
    }

    // The index of a bad symbol is told where the refusal is 13. A code with no whole group is named in docs/DIFFERENCES.md.
    pub fn decode_block(&mut self, code: &[u8], room: usize) {
        let answer = asked::decode_block(code, room);
        let mut out = Lent::room(room, self.salt());
        let mut symbol = self.numbers(1);
        match &answer {
            Ok(bytes) => out.want()[..bytes.len()].copy_from_slice(bytes),
            Err(13) => symbol.want()[0] = symbols::of_block(code).expect("a bad symbol"),
            Err(_) => {}
        }
        let kept = code.to_vec();
        let number = port::decode_block(code, out.given(), &mut symbol.given()[0]);
        let same = number == number_of(&answer) && out.as_wanted() && symbol.as_wanted() && kept == code;
        let (given, want) = (symbol.given()[0], symbol.want()[0]);
        let words = || {
            let told = format!("{number} for {}, symbol {given} for {want}", number_of(&answer));
            format!("{}, room {room}: {told}, fault at {:?}", shown(code), out.first_fault())
        };
        let mut v = verdict(&answer, same, Vec::len);
        v.alone |= code.len() < 5;
        self.tell(Function::DecodeBlock, v, words, code);
    }

    pub fn sector(&mut self, ring: &[u8], track: u8, sector: u8, unique: bool) {
        let answer = asked::sector(ring, track, sector, unique);
        let mut out: Lent<u8> = Lent::room(256, self.salt());
        if let Ok(bytes) = &answer {
            out.want().copy_from_slice(bytes);
        }
        let kept = ring.to_vec();
        let number = port::sector(ring, track, sector, unique, out.given().try_into().expect("256 bytes"));
        let same = number == number_of(&answer) && out.as_wanted() && kept == ring;
        let words = || {
            let (want, fault) = (number_of(&answer), out.first_fault());
            format!("track {track}, sector {sector}, ring {}: {number} for {want}, fault at {fault:?}", shown(ring))
        };
        let function = if unique { Function::ReadUnique } else { Function::ReadConsistent };
        self.tell(function, verdict(&answer, same, |_| 1), words, ring);
    }

    // The ring is left as the original leaves it.
    pub fn replace(&mut self, ring: &mut [u8], track: u8, sector: u8, data: &[u8; 256], unique: bool) {
        let mut lent = Lent::holding(ring, self.salt());
        let answer = asked::replace(lent.want(), track, sector, data, unique);
        let kept = *data;
        let number = port::replace(lent.given(), track, sector, data, unique);
        let same = number == number_of(&answer) && lent.as_wanted() && kept == *data;
        let words = || {
            let (want, fault) = (number_of(&answer), lent.first_fault());
            format!("track {track}, sector {sector}, ring {}: {number} for {want}, fault at {fault:?}", shown(ring))
        };
        let function = if unique { Function::ReplaceUnique } else { Function::ReplaceConsistent };
        self.tell(function, verdict(&answer, same, |_| 1), words, ring);
        ring.copy_from_slice(lent.want());
    }

    pub fn orbit(&mut self, window: &[u8], zone: u8) {
        let want = asked::orbit(window, zone);
        let kept = window.to_vec();
        let span = port::orbit(window, zone);
        let same = span == want.len() as u64 && window[..want.len()] == want && kept == window;
        let words = || format!("zone {zone}, window {}: span {span} for {}", shown(window), want.len());
        self.tell(Function::Orbit, verdict(&Ok(()), same, |_| usize::from(span > 0)), words, window);
    }

    // A slot of a file that the original has decoded. Its ring stands in the file where the pair's place says.
    pub fn slot(&mut self, file: &[u8], medium: &Answer<nib::NibMedium>, slot: u64) {
        let answer = asked::slot(medium, slot);
        let mut lent = self.numbers(3);
        let mut ring_in_file = true;
        if let Ok((ring, zone)) = &answer {
            let pair = (16..asked::HEADER).step_by(2).position(|at| u64::from(file[at]) == slot + 2);
            let at = if ring.is_empty() { 0 } else { asked::HEADER + asked::WINDOW * pair.expect("a present slot") };
            ring_in_file = file[at..at + ring.len()] == **ring;
            lent.want().copy_from_slice(&[at as u64, ring.len() as u64, u64::from(*zone)]);
        }
        let [at, span, zone] = lent.given() else { unreachable!() };
        let number = port::slot(file, slot, [at, span, zone]);
        let same = number == number_of(&answer) && lent.as_wanted() && ring_in_file;
        let (given, want) = (lent.given().to_vec(), lent.want().to_vec());
        let words = || {
            let told = format!("{given:?} for {want:?}");
            format!("slot {slot}, file {}: {number} for {}, {told}", shown(file), number_of(&answer))
        };
        let mut v = verdict(&answer, same, |(ring, _)| usize::from(!ring.is_empty()));
        v.alone |= medium.is_ok() && slot >= asked::SLOTS as u64;
        self.tell(Function::Slot, v, words, file);
    }

    // Lengths behind the 84th are named in docs/DIFFERENCES.md: the original would write those rings.
    pub fn encode_nib(&mut self, lengths: &[u64], zones: &[u8], joined: &[u8], room: usize) -> Answer<Vec<u8>> {
        let answer = asked::encode_nib(lengths, zones, joined, room);
        let mut out = Lent::room(room, self.salt());
        let mut written = self.numbers(1);
        if let Ok(file) = &answer {
            out.want()[..file.len()].copy_from_slice(file);
            written.want()[0] = file.len() as u64;
        }
        let kept = (lengths.to_vec(), zones.to_vec(), joined.to_vec());
        let number = port::encode_nib(lengths, zones, joined, out.given(), &mut written.given()[0]);
        let lent = out.as_wanted() && written.as_wanted() && kept.0 == lengths && kept.1 == zones && kept.2 == joined;
        let words = || {
            let faults = [out.first_fault(), written.first_fault()];
            let lists = format!("lengths {lengths:?}, zones {}, rings {}", shown(zones), shown(joined));
            format!("{lists}, room {room}: {number} for {}, {faults:?}", number_of(&answer))
        };
        let mut v = verdict(&answer, number == number_of(&answer) && lent, |file| file.len() / asked::WINDOW);
        v.alone |= lengths.iter().skip(asked::SLOTS).any(|&n| n > 0);
        self.tell(Function::Encode, v, words, joined);
        answer
    }

    // What is written is held to the model; and the original reads each sector of it.
    pub fn master(&mut self, d64: &[u8], room: usize) {
        let answer = whole::master(d64, room);
        let mut out = Lent::room(room, self.salt());
        let mut written = self.numbers(1);
        if let Ok(g64) = &answer {
            out.want()[..g64.len()].copy_from_slice(g64);
            written.want()[0] = g64.len() as u64;
        }
        let kept = d64.to_vec();
        let number = port::master(d64, out.given(), &mut written.given()[0]);
        let read = match whole::Disk::of(d64) {
            Some(disk) if number == 0 => whole::read_back(&disk, out.given()),
            _ => Ok(0),
        };
        let lent = out.as_wanted() && written.as_wanted() && kept == d64;
        let words = || {
            let faults = [out.first_fault(), written.first_fault()];
            format!("D64 {}, room {room}: {number} for {}, {faults:?}, read {read:?}", shown(d64), number_of(&answer))
        };
        let mut v = verdict(&answer, number == number_of(&answer) && lent && read.is_ok(), |_| 0);
        v.things = read.clone().unwrap_or(0);
        self.tell(Function::Master, v, words, d64);
    }

    // The image is left as the original leaves it. Is it cleared?
    pub fn clear(&mut self, image: &mut [u8], kind: u32) -> bool {
        let answer = asked::clear(image, kind);
        let mut lent = Lent::holding(image, self.salt());
        let mut numbers = self.numbers(2);
        if let Ok(cleared) = &answer {
            lent.want().copy_from_slice(&cleared.image);
            numbers.want().copy_from_slice(&[cleared.free as u64, cleared.changed as u64]);
        }
        let [free, changed] = numbers.given() else { unreachable!() };
        let number = port::clear(lent.given(), kind, free, changed);
        let same = number == number_of(&answer) && lent.as_wanted() && numbers.as_wanted();
        let (given, want) = (numbers.given().to_vec(), numbers.want().to_vec());
        let words = || {
            let told = format!("{given:?} for {want:?}, fault at {:?}", lent.first_fault());
            format!("image {}: {number} for {}, {told}", shown(image), number_of(&answer))
        };
        let function = [Function::ClearD64, Function::ClearG64, Function::ClearNib][kind as usize];
        self.tell(function, verdict(&answer, same, |cleared| cleared.changed), words, image);
        image.copy_from_slice(lent.want());
        answer.is_ok()
    }
}
