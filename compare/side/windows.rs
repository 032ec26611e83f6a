// Windows for the orbit: true periods at every span, ties, noise, shares about a quarter, damage, other lengths.
use crate::asked::WINDOW;
use crate::craft::{any_track, built, bytes, damaged};
use crate::draw::Chooser;
use crate::fdd1541::constants::{NIB_TRACK_BYTES_MAX, NIB_TRACK_BYTES_MIN};
use crate::judge::Judge;

pub fn limits(zone: u8) -> (usize, usize) {
    let slot = usize::from(zone % 4);
    (NIB_TRACK_BYTES_MIN[slot], NIB_TRACK_BYTES_MAX[slot])
}

pub fn repeated(period: &[u8]) -> Vec<u8> {
    period.iter().cycle().take(WINDOW).copied().collect()
}

// A zone byte: of the four, or with other bits set.
fn any_zone(c: &mut Chooser) -> u8 {
    if c.below(2) == 0 {
        c.below(4) as u8
    } else {
        c.byte()
    }
}

pub fn any_span(c: &mut Chooser, zone: u8) -> usize {
    let (low, high) = limits(zone);
    c.within(low as u64 - 2, high as u64 + 2) as usize
}

// Two spans agree over a part of the window each, in shares that are equal or nearly so.
fn two_spans(c: &mut Chooser, zone: u8) -> Vec<u8> {
    let (one, two) = (any_span(c, zone), any_span(c, zone));
    let share = c.one_of(&[1, 2, 3, 4]);
    let mut window = bytes(c, WINDOW);
    for i in 0..(WINDOW - one) / share {
        window[one + i] = window[i];
    }
    for i in 0..(WINDOW - two) / share {
        window[WINDOW - 1 - i] = window[WINDOW - 1 - i - two];
    }
    window
}

// No byte of the first part stands in the second by chance: just so many pairs agree at a span.
fn just_a_quarter(c: &mut Chooser, zone: u8) -> Vec<u8> {
    let span = any_span(c, zone);
    let quarter = (WINDOW - span).div_ceil(4);
    let n = quarter + c.below(5) as usize - 2;
    let mut window = vec![1; WINDOW];
    window[span..].fill(2);
    window[..n].fill(2);
    window
}

fn few_values(c: &mut Chooser) -> Vec<u8> {
    let mask = c.one_of(&[1, 3, 7]);
    bytes(c, WINDOW).into_iter().map(|b| b & mask).collect()
}

fn repeating(c: &mut Chooser, zone: u8) -> Vec<u8> {
    let span = any_span(c, zone);
    repeated(&bytes(c, span))
}

fn worn(c: &mut Chooser, zone: u8) -> Vec<u8> {
    let mut window = repeating(c, zone);
    for _ in 0..c.one_of(&[1, 20, 1_000, 4_000]) {
        window[c.below(WINDOW as u64) as usize] = c.byte();
    }
    damaged(c, &mut window);
    window.resize(WINDOW, 0x55);
    window
}

// The nearest to the middle wins among spans that agree throughout, and the smaller of two that are equally near.
fn every_period(judge: &mut Judge, c: &mut Chooser) {
    judge.about = "every period to 220, each zone".to_string();
    for n in 1..=220 {
        let window = repeated(&bytes(c, n));
        for zone in 0..4 {
            judge.orbit(&window, zone);
        }
    }
    judge.about = "a true period at every span".to_string();
    for zone in 0..4 {
        let (low, high) = limits(zone);
        for span in low - 2..=high + 2 {
            judge.orbit(&repeated(&bytes(c, span)), zone);
        }
    }
}

fn other_lengths(judge: &mut Judge, c: &mut Chooser) {
    judge.about = "windows of other lengths".to_string();
    let long = bytes(c, 20_000);
    for n in [0, 1, 2, 6182, 6183, 7824, 8190, 8191, 8193, 8194, 16_384, 20_000] {
        for zone in 0..4 {
            judge.orbit(&long[..n], zone);
        }
    }
}

pub fn all(judge: &mut Judge, c: &mut Chooser, size: u64) {
    every_period(judge, c);
    other_lengths(judge, c);
    judge.about = "any windows".to_string();
    for k in 0..1_400 * size {
        let zone = any_zone(c);
        let window = match k % 7 {
            0 => bytes(c, WINDOW),
            1 => two_spans(c, zone),
            2 => just_a_quarter(c, zone),
            3 => few_values(c),
            4 => worn(c, zone),
            5 => {
                let track = any_track(c);
                repeated(&built(c, track))
            }
            _ => repeating(c, zone),
        };
        judge.orbit(&window, zone);
    }
}
