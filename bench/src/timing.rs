//! Time side by side, as ratios. Each time is the least of many rounds, in which the calls take turns.
use crate::{linked, plain};
use std::hint::black_box;
use std::time::{Duration, Instant};

const REEL: u32 = 1_000_000;
const LIMIT: u32 = 50_000;
const SIZES: [u32; 3] = [1_000, 8_000, 32_768];
const ACCEPT: [u32; 3] = [0, 15, 255];

/// What is to be kept at every point.
const OF_THE_HAND_WRITTEN: f64 = 1.10;
const OF_ONE_CHANCE: f64 = 1.25;
const PER_DRAW: f64 = 1.5;
const PER_CELL: f64 = 1.1;

struct Rows {
    low: Vec<u64>,
    high: Vec<u64>,
}

fn timed<T>(work: impl FnOnce() -> T) -> Duration {
    let start = Instant::now();
    black_box(work());
    start.elapsed()
}

fn single(size: u32, accept: u32) -> [u32; 5] {
    [size, accept, accept + 1, 0, accept]
}

/// The fewest bad frames for which a sample of at most that size keeps the limit, and the smallest sample for them.
fn tolerance(rule: u32, size: u32, accept: u32, rows: &mut Rows) -> (u32, u32) {
    let (mut too_few, mut enough) = (0, REEL);
    while too_few + 1 < enough {
        let half = (too_few + enough) / 2;
        match plain::smallest(rule, REEL, half, LIMIT, accept, &mut rows.low, &mut rows.high) {
            Ok(found) if found <= size => enough = half,
            _ => too_few = half,
        }
    }
    let found = plain::smallest(rule, REEL, enough, LIMIT, accept, &mut rows.low, &mut rows.high);
    (enough, found.expect("a sample keeps the limit"))
}

struct Times {
    chance: f64,
    chance_by_hand: f64,
    chance_of_smallest: f64,
    smallest: f64,
    smallest_by_hand: f64,
}

fn measure(rule: u32, size: u32, accept: u32, rows: &mut Rows) -> Times {
    let (bad, found) = tolerance(rule, size, accept, rows);
    let Rows { low, high } = rows;
    let (plan, found_plan) = (single(size, accept), single(found, accept));
    let mut least = [Duration::MAX; 5];
    let rounds = (400_000_000 / (u64::from(size) * u64::from(accept + 1) * 20)).clamp(9, 400);
    for _ in 0..rounds {
        let times = [
            timed(|| linked::chance(rule, REEL, bad, black_box(plan), low, high)),
            timed(|| plain::chance(rule, REEL, bad, black_box(plan), low, high)),
            timed(|| linked::chance(rule, REEL, bad, black_box(found_plan), low, high)),
            timed(|| linked::smallest(rule, REEL, bad, LIMIT, black_box(accept), low, high)),
            timed(|| plain::smallest(rule, REEL, bad, LIMIT, black_box(accept), low, high)),
        ];
        for (best, time) in least.iter_mut().zip(times) {
            *best = time.min(*best);
        }
    }
    let [chance, chance_by_hand, chance_of_smallest, smallest, smallest_by_hand] = least.map(|time| time.as_secs_f64());
    Times { chance, chance_by_hand, chance_of_smallest, smallest, smallest_by_hand }
}

/// The greatest ratio met, against what it may be.
struct Bound {
    what: &'static str,
    most: f64,
    met: f64,
}

impl Bound {
    fn new(what: &'static str, most: f64) -> Bound {
        Bound { what, most, met: 0.0 }
    }

    fn see(&mut self, ratio: f64) {
        self.met = self.met.max(ratio);
    }

    fn kept(&self) -> bool {
        let kept = self.met <= self.most;
        println!(
            "{}: at most {:.2}, {:.2} allowed: {}",
            self.what,
            self.met,
            self.most,
            if kept { "kept" } else { "MISSED" }
        );
        kept
    }
}

/// Prints the table and says whether every bound is kept.
pub fn table() -> bool {
    let rows = &mut Rows { low: vec![0; 256], high: vec![0; 256] };
    let mut hand = Bound::new("chance, of the hand-written one's time", OF_THE_HAND_WRITTEN);
    let mut chance = Bound::new("smallest, of one chance of the same size", OF_ONE_CHANCE);
    let mut draws = Bound::new("time per draw at 1,000 and at 32,768, the longer of the shorter", PER_DRAW);
    let mut cells = Bound::new("time per draw and cell, of that with the next smaller Ac2", PER_CELL);
    println!("rule  Ac2       n   chance us  ns a draw  of hand   smallest of chance  of hand");
    for rule in [1, 2] {
        let mut per_cell_before = f64::MAX;
        for accept in ACCEPT {
            let mut per_draw = Vec::new();
            for size in SIZES {
                let t = measure(rule, size, accept, rows);
                let a_draw = t.chance * 1e9 / f64::from(size);
                println!(
                    "{rule:4} {accept:4} {size:7} {:11.1} {a_draw:10.1} {:8.2} {:20.2} {:8.2}",
                    t.chance * 1e6,
                    t.chance / t.chance_by_hand,
                    t.smallest / t.chance_of_smallest,
                    t.smallest / t.smallest_by_hand
                );
                hand.see(t.chance / t.chance_by_hand);
                chance.see(t.smallest / t.chance_of_smallest);
                per_draw.push(a_draw);
            }
            let (least, most) = per_draw.iter().fold((f64::MAX, 0.0_f64), |(l, m), x| (l.min(*x), m.max(*x)));
            draws.see(most / least);
            let per_cell = most / f64::from(accept + 1);
            cells.see(per_cell / per_cell_before);
            per_cell_before = per_cell;
        }
    }
    let kept = [hand.kept(), chance.kept(), draws.kept(), cells.kept()];
    kept.iter().all(|kept| *kept)
}
