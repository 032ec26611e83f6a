// The lines of answers.
use crate::asked;
use crate::draw::{sum_of, Sum};
use crate::machine::Asks;
use crate::symbols;

pub struct Lines;

fn refused(number: u8, bytes: &[u8]) -> String {
    format!("refused {} sum {:08X}\n", number, sum_of(bytes))
}

// A room that something was made for. The sum is over the whole room, so that it shows what was not written too.
fn into_room(word: &str, made: asked::Answer<Vec<u8>>, room: &mut [u8]) -> String {
    match made {
        Ok(bytes) => {
            room[..bytes.len()].copy_from_slice(&bytes);
            format!("{word} {} sum {:08X}\n", bytes.len(), sum_of(room))
        }
        Err(number) => refused(number, room),
    }
}

// The first bad symbol of a scan, where there is one: the model's.
fn met([block, symbol, bit]: [u64; 3]) -> String {
    match block {
        symbols::HEADER => format!(" header symbol {symbol} bit {bit}"),
        symbols::DATA => format!(" data symbol {symbol} bit {bit}"),
        _ => String::new(),
    }
}

// That of a ring from bit 0 on, as a sector is looked for.
fn met_in(ring: &[u8], track: u8) -> String {
    asked::scan(ring, track, 0, true).map_or(String::new(), |scan| met(scan.bad))
}

impl Asks for Lines {
    fn heading(&mut self, row: &str) -> String {
        row.to_string()
    }

    fn encode_block(&mut self, bytes: &[u8], room: &mut [u8]) -> String {
        into_room("coded", asked::encode_block(bytes, room.len()), room)
    }

    // The index of the symbol is the model's.
    fn decode_block(&mut self, code: &[u8], room: &mut [u8]) -> String {
        match asked::decode_block(code, room.len()) {
            Err(13) => {
                let k = symbols::of_block(code).expect("a bad symbol");
                format!("refused 13 symbol {k} sum {:08X}\n", sum_of(room))
            }
            answer => into_room("decoded", answer, room),
        }
    }

    fn build(&mut self, [track, id1, id2]: [u8; 3], payloads: &[u8], codes: &[u8], room: &mut [u8]) -> String {
        into_room("built", asked::build(track, payloads, codes, id1, id2, room.len()), room)
    }

    fn scan(&mut self, ring: &[u8], track: u8, start: u64, rows: usize) -> String {
        match asked::scan(ring, track, start, rows >= asked::RECORDS) {
            Ok(scan) => {
                let mut sum = Sum::new();
                for record in &scan.records {
                    sum.byte(record.sector);
                    sum.number(record.place);
                    sum.bytes(&record.payload);
                }
                format!("records {}{} sum {:08X}\n", scan.records.len(), met(scan.bad), sum.0)
            }
            Err(number) => format!("refused {number}\n"),
        }
    }

    // The status digits are those of docs/RULES.md, by the model.
    fn read(&mut self, ring: &[u8], track: u8, start: u64) -> String {
        match asked::read(ring, track, start, true) {
            Ok(read) => {
                let mut sum = Sum::new();
                for sector in &read.sectors {
                    sum.bytes(&sector.unwrap_or([0; 256]));
                }
                let statuses: String = read.statuses.iter().map(u8::to_string).collect();
                format!("found {} status {statuses}{} sum {:08X}\n", read.found(), met(read.bad), sum.0)
            }
            Err(number) => format!("refused {number}\n"),
        }
    }

    fn sector(&mut self, ring: &[u8], track: u8, sector: u8, unique: bool) -> String {
        match asked::sector(ring, track, sector, unique) {
            Ok(bytes) => format!("sector{} sum {:08X}\n", met_in(ring, track), sum_of(&bytes)),
            Err(number) => format!("refused {number}\n"),
        }
    }

    // The sum is over the ring as it then is.
    fn replace(&mut self, ring: &mut [u8], track: u8, sector: u8, bytes: &[u8; 256], unique: bool) -> String {
        let came = met_in(ring, track);
        match asked::replace(ring, track, sector, bytes, unique) {
            Ok(()) => format!("written{came} sum {:08X}\n", sum_of(ring)),
            Err(number) => refused(number, ring),
        }
    }

    fn orbit(&mut self, window: &[u8], zone: u8) -> String {
        format!("span {}\n", asked::orbit(window, zone).len())
    }

    fn nib(&mut self, file: &[u8]) -> String {
        match asked::nib(file) {
            Ok(medium) => {
                let mut sum = Sum::new();
                for (ring, &zone) in medium.rings.iter().zip(&medium.zones) {
                    sum.byte(zone);
                    sum.number(ring.len() as u64);
                    sum.bytes(ring);
                }
                let present = medium.rings.iter().filter(|ring| !ring.is_empty()).count();
                format!("slots {present} sum {:08X}\n", sum.0)
            }
            Err(number) => format!("refused {number}\n"),
        }
    }

    fn slot(&mut self, file: &[u8], slot: u64) -> String {
        match asked::slot(&asked::nib(file), slot) {
            Ok((ring, zone)) => format!("zone {zone} length {} sum {:08X}\n", ring.len(), sum_of(ring)),
            Err(number) => format!("refused {number}\n"),
        }
    }

    fn encode_nib(&mut self, lengths: &[u64], zones: &[u8], joined: &[u8], room: &mut [u8]) -> String {
        into_room("encoded", asked::encode_nib(lengths, zones, joined, room.len()), room)
    }

    // The sum is over the image as it then is.
    fn clear(&mut self, image: &mut [u8], kind: u32) -> String {
        match asked::clear(image, kind) {
            Ok(c) => {
                image.copy_from_slice(&c.image);
                format!("free {} changed {} sum {:08X}\n", c.free, c.changed, sum_of(image))
            }
            Err(number) => refused(number, image),
        }
    }
}
