//! Time of the calls. A round measures everything once, both sides in turn on the same bank, the order changing from round to
//! round; a figure is the median over the banks of each bank's median over the rounds, and a ratio is the median of the banks'
//! ratios. The clock is the thread's processor time, which other work on the machine disturbs less than the time of day.

use bench::{seeds, Call, Input, Side, SIDES};

/// The least time that is taken as one measurement; shorter calls are repeated within it.
const LEAST: f64 = 500e-6;

/// Times of one call, in seconds.
pub struct Times {
    pub verified: f64,
    pub independent: f64,
    pub ratio: f64,
}

/// Banks of one size and coefficient size, and what was measured of them so far.
pub struct Banks {
    inputs: Vec<Input>,
    measured: Vec<Measured>,
}

/// One call on one bank; figures in the order of the sides.
struct Measured {
    call: Call,
    input: usize,
    repeats: [usize; 2],
    times: [Vec<f64>; 2],
}

impl Banks {
    /// So many banks, for these calls to be measured on.
    pub fn new(m: usize, n: usize, bits: u32, count: usize, calls: &[Call]) -> Self {
        let vectors = calls.iter().map(|call| call.vectors()).max().unwrap_or(0);
        let input = |seed| Input::of_seed(seed, m, n, bits, vectors);
        let mut inputs: Vec<Input> = seeds(count).map(input).collect();
        let mut measured = Vec::new();
        for &call in calls {
            for (index, input) in inputs.iter_mut().enumerate() {
                measured.push(Measured {
                    call,
                    input: index,
                    repeats: SIDES.map(|side| repeats(input, call, side)),
                    times: [Vec::new(), Vec::new()],
                });
            }
        }
        Banks { inputs, measured }
    }

    /// The median number of operations.
    pub fn operations(&self) -> f64 {
        self.median_of(|input| input.operations)
    }

    /// The median number of registers.
    pub fn registers(&self) -> f64 {
        self.median_of(|input| input.registers())
    }

    /// The median number of registers that are delays.
    pub fn delays(&self) -> f64 {
        self.median_of(|input| input.registers() - input.operations)
    }

    fn median_of(&self, number: impl Fn(&Input) -> usize) -> f64 {
        median(self.inputs.iter().map(|i| number(i) as f64).collect())
    }

    /// Measures every call on every bank once more, both sides in turn.
    fn measure(&mut self, round: usize) {
        for one in &mut self.measured {
            let input = &mut self.inputs[one.input];
            for turn in 0..2 {
                let side = (round + turn) % 2;
                let time = time(input, one.call, SIDES[side], one.repeats[side]);
                one.times[side].push(time);
            }
        }
    }

    /// A call's medians over the rounds, on each bank in turn.
    fn medians(&self, call: Call) -> Vec<[f64; 2]> {
        let of_call = self.measured.iter().filter(|one| one.call == call);
        of_call.map(|one| one.times.clone().map(median)).collect()
    }

    /// The medians of what was measured of a call.
    pub fn times(&self, call: Call) -> Times {
        let medians = self.medians(call);
        Times {
            verified: median(medians.iter().map(|t| t[0]).collect()),
            independent: median(medians.iter().map(|t| t[1]).collect()),
            ratio: median(medians.iter().map(|t| t[0] / t[1]).collect()),
        }
    }

    /// The verified side's time of one call to that of another, the median of the banks' ratios.
    pub fn verified_ratio(&self, call: Call, other: Call) -> f64 {
        let (call, other) = (self.medians(call), self.medians(other));
        let ratios = call.iter().zip(&other).map(|(t, o)| t[0] / o[0]);
        median(ratios.collect())
    }
}

/// Measures all banks in so many rounds.
pub fn measure(all: &mut [Banks], rounds: usize) {
    for round in 0..rounds {
        for banks in all.iter_mut() {
            banks.measure(round);
        }
    }
}

/// How many calls make up one measurement.
fn repeats(input: &mut Input, call: Call, side: Side) -> usize {
    let once = time(input, call, side, 1).max(1e-9);
    (LEAST / once).ceil() as usize
}

/// The time of one call out of so many.
fn time(input: &mut Input, call: Call, side: Side, repeats: usize) -> f64 {
    let before = processor_time();
    for _ in 0..repeats {
        input.call(call, side);
    }
    (processor_time() - before) / repeats as f64
}

fn median(mut numbers: Vec<f64>) -> f64 {
    numbers.sort_by(f64::total_cmp);
    numbers[numbers.len() / 2]
}

#[repr(C)]
struct Timespec {
    seconds: i64,
    nanoseconds: i64,
}

extern "C" {
    fn clock_gettime(clock: i32, time: *mut Timespec) -> i32;
}

/// The thread's processor time in seconds (Linux on 64 bits).
pub fn processor_time() -> f64 {
    const THREAD_TIME: i32 = 3;
    let mut time = Timespec {
        seconds: 0,
        nanoseconds: 0,
    };
    // SAFETY: the struct is laid out as Linux has it on 64 bits.
    let result = unsafe { clock_gettime(THREAD_TIME, &mut time) };
    assert_eq!(result, 0);
    time.seconds as f64 + time.nanoseconds as f64 * 1e-9
}
