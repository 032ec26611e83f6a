// What was compared, function by function.
use std::fs;

pub const NAMES: [&str; 17] = [
    "build_track",
    "scan",
    "scan_records",
    "decode_track",
    "read_unique",
    "read_consistent",
    "replace_unique",
    "replace_consistent",
    "orbit",
    "nib_slot",
    "encode_nib",
    "clear_d64",
    "clear_g64",
    "clear_nib",
    "encode_block",
    "decode_block",
    "d64_to_g64",
];

// What each of them hands out.
const THINGS: [&str; 17] = [
    "tracks",
    "records",
    "records",
    "sectors found",
    "sectors",
    "sectors",
    "sectors",
    "sectors",
    "spans",
    "rings",
    "windows",
    "sectors cleared",
    "sectors cleared",
    "sectors cleared",
    "bytes of code",
    "bytes",
    "sectors read back",
];

// The folder that the first differing input of each function is written to.
const FOLDER: &str = "target/beside";

#[derive(Clone, Copy, PartialEq)]
pub enum Function {
    Build,
    Scan,
    ScanRecords,
    Read,
    ReadUnique,
    ReadConsistent,
    ReplaceUnique,
    ReplaceConsistent,
    Orbit,
    Slot,
    Encode,
    ClearD64,
    ClearG64,
    ClearNib,
    EncodeBlock,
    DecodeBlock,
    Master,
}

// What came out on one side and on the other.
#[derive(Clone, Default)]
struct Counts {
    compared: u64,
    // how many answers had each number; 0 is done
    numbers: [u64; 14],
    // of those, how many have a number, or a file, that is ours alone, as docs/DIFFERENCES.md names them
    alone: u64,
    // records, sectors, bytes or whatever else the function hands out
    things: u64,
    differ: u64,
    first: String,
}

pub struct Tally {
    counts: Vec<Counts>,
    // how many sectors of the tracks that were read have each status
    statuses: [u64; 10],
    // how many scans met no bad symbol, one in a header, one in a data block
    bad: [u64; 3],
}

// The numbers above 0 that were counted, and how often.
fn each(counts: &[u64]) -> String {
    let told: Vec<String> =
        counts.iter().enumerate().skip(1).filter(|(_, &n)| n > 0).map(|(k, n)| format!("{k}: {n}")).collect();
    if told.is_empty() {
        "-".to_string()
    } else {
        told.join(", ")
    }
}

impl Tally {
    pub fn new() -> Tally {
        Tally { counts: vec![Counts::default(); NAMES.len()], statuses: [0; 10], bad: [0; 3] }
    }

    pub fn count(&mut self, function: Function, number: u64, alone: bool, things: usize) {
        let counts = &mut self.counts[function as usize];
        counts.compared += 1;
        counts.numbers[number as usize] += 1;
        counts.alone += u64::from(alone);
        counts.things += things as u64;
    }

    pub fn statuses(&mut self, told: &[u8]) {
        for &status in told {
            self.statuses[usize::from(status)] += 1;
        }
    }

    pub fn bad_symbol(&mut self, block: u64) {
        self.bad[block as usize] += 1;
    }

    // The bytes of the first differing input are kept in a file.
    pub fn differs(&mut self, function: Function, words: String, bytes: &[u8]) {
        let counts = &mut self.counts[function as usize];
        counts.differ += 1;
        if counts.differ > 1 {
            return;
        }
        let file = format!("{FOLDER}/{}.bin", NAMES[function as usize]);
        let kept = fs::create_dir_all(FOLDER).and_then(|()| fs::write(&file, bytes));
        counts.first = match kept {
            Ok(()) => format!("{words}; its bytes are in {file}"),
            Err(_) => words,
        };
    }

    // A line for each function.
    pub fn print(&self) {
        for ((name, things), c) in NAMES.iter().zip(THINGS).zip(&self.counts) {
            let refused = each(&c.numbers);
            let done = format!("{} done, {} {things}", c.numbers[0], c.things);
            println!(
                "{name}: {} inputs compared, {} differ; {done}; refused {refused}; ours alone {}",
                c.compared, c.differ, c.alone
            );
            if c.differ > 0 {
                println!("    first: {}", c.first);
            }
        }
        println!("statuses of the sectors of decode_track: {}", each(&self.statuses));
        let [none, header, block] = self.bad;
        println!("first bad symbols of scans: none {none}, in a header {header}, in a data block {block}");
        println!("in all {} inputs compared, {} differ", self.total(|c| c.compared), self.differing());
    }

    fn total(&self, what: impl Fn(&Counts) -> u64) -> u64 {
        self.counts.iter().map(what).sum()
    }

    pub fn differing(&self) -> u64 {
        self.total(|c| c.differ)
    }
}
