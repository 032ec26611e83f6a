// Both sides timed in turn, round by round, each the same number of calls.
use std::time::Duration;

#[repr(C)]
struct Timespec {
    seconds: i64,
    nanoseconds: i64,
}

extern "C" {
    fn clock_gettime(clock: i32, time: *mut Timespec) -> i32;
}

// CLOCK_THREAD_CPUTIME_ID of Linux: what this thread has had of a processor, so that waiting for one does not count.
const THREAD_TIME: i32 = 3;

pub fn now() -> Duration {
    let mut time = Timespec { seconds: 0, nanoseconds: 0 };
    assert_eq!(unsafe { clock_gettime(THREAD_TIME, &mut time) }, 0);
    Duration::new(time.seconds as u64, time.nanoseconds as u32)
}

// So many calls, and the time that they took.
pub type Timed = Box<dyn FnMut(u32) -> Duration>;

pub struct Case {
    pub name: String,
    pub rust: Timed,
    pub port: Timed,
}

// The least time of a call, and how far the median lies above it, in percent.
#[derive(Clone, Copy)]
struct Times {
    least: f64,
    spread: f64,
}

fn times(mut per_call: Vec<f64>) -> Times {
    per_call.sort_by(f64::total_cmp);
    let (least, median) = (per_call[0], per_call[per_call.len() / 2]);
    Times { least, spread: 100.0 * (median / least - 1.0) }
}

// A round is some milliseconds of calls; there are as many rounds as the time allows, between `fewest` and `most`.
pub struct Rounds {
    pub round: Duration,
    pub whole: Duration,
    pub fewest: u32,
    pub most: u32,
}

impl Rounds {
    fn calls(&self, case: &mut Case) -> u32 {
        let mut calls = 1;
        while (case.rust)(calls) < self.round && calls < 1 << 20 {
            calls *= 2;
        }
        calls
    }

    // Either side goes first in every other round.
    fn both(&self, case: &mut Case) -> (Times, Times) {
        let calls = self.calls(case);
        let per_call = |time: Duration| time.as_nanos() as f64 / f64::from(calls);
        let (mut rust, mut port) = (Vec::new(), Vec::new());
        let mut spent = Duration::ZERO;
        while rust.len() < self.fewest as usize || spent < self.whole && rust.len() < self.most as usize {
            let (r, p) = if rust.len() % 2 == 0 {
                let r = (case.rust)(calls);
                (r, (case.port)(calls))
            } else {
                let p = (case.port)(calls);
                ((case.rust)(calls), p)
            };
            spent += r + p;
            rust.push(per_call(r));
            port.push(per_call(p));
        }
        (times(rust), times(port))
    }

    // A line of the table; the ratio is of the least times, above 1 where the port is faster.
    pub fn line(&self, case: &mut Case) -> String {
        let (rust, port) = self.both(case);
        format!(
            "| {} | {:.0} | {:.0} | {:.2} | {:.0} %, {:.0} % |",
            case.name,
            rust.least,
            port.least,
            rust.least / port.least,
            rust.spread,
            port.spread
        )
    }
}
