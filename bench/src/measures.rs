//! Measuring rounds: instructions by callgrind, and times.

use crate::tasks::CASES;
use crate::{ours, rounds, tasks};
use std::hint::black_box;
use std::process::Command;

/// Who makes the rounds.
#[derive(Clone, Copy, PartialEq)]
pub enum Side {
    Ours,
    Plain,
}

/// Rounds of one sort, over one kind of representation.
#[derive(Clone, Copy)]
pub struct Rounds {
    pub kind: u8,
    pub round: u8,
    pub size: usize,
}

/// The turns of a shorter and of a longer run under callgrind.
const TURNS: [usize; 2] = [1, 9];

/// The turns that a longer timed run has more than a shorter one, times the modules of a case.
const TIMED_MODULES: usize = 256;

/// How often each run is timed.
const RUNS: usize = 100;

impl Rounds {
    /// Makes the rounds of so many turns at one side, and answers what they add up to.
    pub fn run(self, side: Side, turns: usize, task: &[u8]) -> u64 {
        let make = if side == Side::Ours {
            ours::rounds
        } else {
            rounds::rounds
        };
        make(self.kind, self.round, turns, task)
    }

    /// Instructions of one round: the difference of a longer and a shorter run, by the rounds between them.
    pub fn instructions(self, side: Side) -> u64 {
        let [short, long] = TURNS.map(|turns| self.instructions_of_run(side, turns));
        (long - short) / (CASES * (TURNS[1] - TURNS[0])) as u64
    }

    /// Instructions of a run of this program that makes the rounds of so many turns.
    fn instructions_of_run(self, side: Side, turns: usize) -> u64 {
        let words = [
            usize::from(side == Side::Plain),
            self.kind.into(),
            self.round.into(),
            self.size,
            turns,
        ];
        let program = std::env::current_exe().expect("the program's own path");
        let output = Command::new("valgrind")
            .args(["--tool=callgrind", "--callgrind-out-file=/dev/null"])
            .arg(program)
            .arg("rounds")
            .args(words.map(|word| word.to_string()))
            .output()
            .expect("valgrind");
        let said = String::from_utf8_lossy(&output.stderr);
        let count = said
            .lines()
            .find_map(|line| line.split_once("Collected : "));
        count
            .and_then(|(_, count)| count.trim().parse().ok())
            .expect("a count of instructions")
    }

    /// Nanoseconds of one round of each side, from the least of many shorter and of many longer runs, which alternate.
    pub fn times(self) -> [f64; 2] {
        let task = tasks::cases(self.size);
        let more = TIMED_MODULES / self.size;
        let mut least = [[f64::MAX; 2]; 2];
        for _ in 0..RUNS {
            for (least, side) in least.iter_mut().zip([Side::Ours, Side::Plain]) {
                for (least, turns) in least.iter_mut().zip([1, 1 + more]) {
                    let start = processor_time();
                    black_box(self.run(side, turns, &task));
                    *least = least.min((processor_time() - start) as f64);
                }
            }
        }
        least.map(|[short, long]| (long - short) / (CASES * more) as f64)
    }
}

/// A time as the system tells it.
#[repr(C)]
struct TimeSpec {
    seconds: i64,
    nanoseconds: i64,
}

extern "C" {
    fn clock_gettime(clock: i32, time: *mut TimeSpec) -> i32;
}

/// The processor time of this process in nanoseconds, to which other work on the machine adds little.
fn processor_time() -> i64 {
    const OF_THE_PROCESS: i32 = 2;
    let mut time = TimeSpec {
        seconds: 0,
        nanoseconds: 0,
    };
    unsafe { clock_gettime(OF_THE_PROCESS, &mut time) };
    time.seconds * 1_000_000_000 + time.nanoseconds
}
