// The unchanged Rust and the proved library in one program: every result of every exported function, compared.
//   beside SEED SIZE
mod asked;
mod blocks;
mod building;
mod cases;
mod cases_block;
mod cases_build;
mod cases_clear_nib;
mod cases_d64;
mod cases_disk;
mod cases_g64;
mod cases_nib;
mod cases_scan;
mod cases_sector;
mod cases_slips;
mod cases_status;
mod cases_symbols;
mod craft;
mod disks;
mod draw;
pub mod fdd1541;
mod files;
mod images;
mod judge;
mod known;
mod lent;
mod machine;
mod masters;
mod port;
mod rows;
mod small_rings;
mod status_rings;
mod statuses;
mod stored;
mod symbol_rings;
mod symbols;
mod tally;
mod tracks;
mod whole;
mod windows;

use draw::Chooser;
use judge::Judge;

fn main() {
    let words: Vec<u64> = std::env::args().skip(1).map(|w| w.parse().expect("a decimal number")).collect();
    let [seed, size] = words[..] else { panic!("beside SEED SIZE") };
    let mut judge = Judge::new(seed);
    let mut choose = Chooser::new(seed);
    stored::all(&mut judge, seed, size);
    let parts: [fn(&mut Judge, &mut Chooser, u64); 11] = [
        building::all,
        small_rings::all,
        tracks::all,
        windows::all,
        files::all,
        disks::all,
        images::all,
        status_rings::all,
        symbol_rings::all,
        blocks::all,
        masters::all,
    ];
    for part in parts {
        part(&mut judge, &mut choose, size);
    }
    judge.tally.print();
    std::process::exit(i32::from(judge.tally.differing() > 0));
}
