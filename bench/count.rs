// Each side asked twice, so that the clock is read eight times a line: bench/count takes the instructions of the second calls.
mod draw;
pub mod fdd1541;
mod inputs;
mod lines;
mod pairs;
mod port;
mod timing;

fn main() {
    for mut case in lines::all() {
        (case.rust)(1);
        (case.rust)(1);
        (case.port)(1);
        (case.port)(1);
        println!("{}", case.name);
    }
}
