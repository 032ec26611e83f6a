// The original and the library timed in one program, in turn, on the same inputs.
//   bench [QUICK]      with any word: fewer rounds
mod draw;
pub mod fdd1541;
mod inputs;
mod lines;
mod pairs;
mod port;
mod timing;

use std::time::Duration;
use timing::Rounds;

fn main() {
    let quick = std::env::args().len() > 1;
    let rounds = Rounds {
        round: Duration::from_millis(2),
        whole: Duration::from_millis(if quick { 100 } else { 2_000 }),
        fewest: if quick { 3 } else { 7 },
        most: 200,
    };
    println!("| what | Rust ns | port ns | Rust/port | median above least: Rust, port |");
    println!("|---|---:|---:|---:|---:|");
    for mut case in lines::all() {
        println!("{}", rounds.line(&mut case));
    }
}
