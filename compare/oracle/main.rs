// The original beside the port: its files, included unchanged (fdd1541.rs), and a program that asks them.
//   oracle groups               the lines of replay_groups
//   oracle dropouts             the lines of replay_dropouts
//   oracle symbols              rings whose first bad symbol is known, each with the model's word
//   oracle cases KIND [SEED [SCALE]]   rows that describe cases, for a program's standard input
//   oracle answer               reads rows, writes the original's answers, with the statuses of the model
// compare/README.md describes rows and answers.
mod answers;
mod asked;
mod cases;
mod cases_block;
mod cases_build;
mod cases_clear_nib;
mod cases_d64;
mod cases_disk;
mod cases_g64;
mod cases_nib;
mod cases_scan;
mod cases_sector;
mod cases_slips;
mod cases_status;
mod cases_symbols;
mod draw;
mod dropouts;
pub mod fdd1541;
mod groups;
mod known;
mod machine;
mod rows;
mod statuses;
mod symbols;

use std::io::{self, Read, Write};

fn number(word: Option<&String>, default: u64) -> u64 {
    word.map_or(default, |w| w.parse().expect("a decimal number"))
}

fn main() {
    let words: Vec<String> = std::env::args().collect();
    let out = match words.get(1).map(String::as_str) {
        Some("groups") => groups::lines(),
        Some("dropouts") => dropouts::lines(),
        Some("symbols") => known::lines(),
        Some("cases") => {
            let kind = words.get(2).expect("cases KIND [SEED [SCALE]]");
            cases::of_kind(kind, number(words.get(3), 1), number(words.get(4), 1))
        }
        Some("answer") => {
            let mut rows = Vec::new();
            io::stdin().read_to_end(&mut rows).expect("rows on standard input");
            machine::run(&rows, &mut answers::Lines)
        }
        _ => {
            eprintln!("oracle groups | dropouts | symbols | cases KIND [SEED [SCALE]] | answer");
            std::process::exit(2);
        }
    };
    io::stdout().write_all(&out).expect("a standard output");
}
