//! A row of the table: two ways to do the same thing, and how they are timed.
use std::time::Instant;

/// What a side is told to do: to get ready for a lap, untimed, or to run one.
pub enum Phase {
    Ready,
    Lap(usize),
}

pub type Side = Box<dyn FnMut(Phase)>;

#[derive(Clone, Copy, PartialEq, Eq)]
pub enum Group {
    Read,
    Refuse,
    Write,
    Exchange,
}

pub struct Row {
    pub group: Group,
    pub name: String,
    /// How many calls a pass makes; a lap makes `passes` passes.
    calls: usize,
    passes: usize,
    sides: [Side; 2],
    times: [Vec<f64>; 2],
}

/// A side without a state that changes: a lap makes passes over the inputs.
pub fn calls(mut pass: impl FnMut() + 'static) -> Side {
    Box::new(move |phase| match phase {
        Phase::Ready => pass(),
        Phase::Lap(passes) => {
            for _ in 0..passes {
                pass();
            }
        }
    })
}

/// A side that changes states: every lap begins with the same ones. They are put back untimed, after a pass that warms up.
pub fn changes<S: Clone + 'static>(fresh: Vec<S>, mut pass: impl FnMut(&mut [S]) + 'static) -> Side {
    let mut states = fresh.clone();
    Box::new(move |phase| match phase {
        Phase::Ready => {
            pass(&mut states);
            states.clone_from_slice(&fresh);
        }
        Phase::Lap(_) => pass(&mut states),
    })
}

/// How long a lap of the slower side is to take, in nanoseconds: long beside reading the clock, short beside a time slice.
const LAP: f64 = 20_000.0;

fn lap(side: &mut Side, passes: usize) -> f64 {
    side(Phase::Ready);
    let began = Instant::now();
    side(Phase::Lap(passes));
    began.elapsed().as_nanos() as f64
}

fn median(times: &mut [f64]) -> f64 {
    times.sort_by(f64::total_cmp);
    times[times.len() / 2]
}

impl Row {
    /// `calls` is the number of calls in a pass over the inputs.
    pub fn new(group: Group, name: impl Into<String>, calls: usize, ours: Side, theirs: Side) -> Row {
        Row { group, name: name.into(), calls, passes: 1, sides: [ours, theirs], times: [Vec::new(), Vec::new()] }
    }

    /// A row whose laps change states, which are one pass long.
    pub fn is_timed_whole(mut self) -> Row {
        self.passes = 0;
        self
    }

    pub fn calibrate(&mut self) {
        if self.passes == 0 {
            self.passes = 1;
            return;
        }
        let slower =
            self.sides.iter_mut().map(|side| median(&mut [(); 9].map(|()| lap(side, 4) / 4.0))).fold(1.0, f64::max);
        self.passes = (LAP / slower).ceil() as usize;
    }

    /// Times both sides once; which is first changes with the round.
    pub fn round(&mut self, round: usize) {
        for i in [round % 2, (round + 1) % 2] {
            let ns = lap(&mut self.sides[i], self.passes) / (self.passes * self.calls) as f64;
            self.times[i].push(ns);
        }
    }

    /// The medians, ours and theirs, in nanoseconds per call.
    pub fn medians(&mut self) -> (f64, f64) {
        (median(&mut self.times[0]), median(&mut self.times[1]))
    }
}
