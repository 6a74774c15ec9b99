//! Both versions on the same random inputs, valid and not: answers and every cell of both rows must be equal.
use crate::{linked, plain};
use plain::Refusal;
use std::collections::BTreeMap;
use std::fmt::Debug;

/// Numbers that look random and are the same in every run.
struct Numbers(u64);

impl Numbers {
    fn next(&mut self) -> u64 {
        self.0 = self.0.wrapping_add(0x9e37_79b9_7f4a_7c15);
        let z = (self.0 ^ (self.0 >> 30)).wrapping_mul(0xbf58_476d_1ce4_e5b9);
        let z = (z ^ (z >> 27)).wrapping_mul(0x94d0_49bb_1331_11eb);
        z ^ (z >> 31)
    }

    fn below(&mut self, end: u64) -> u32 {
        (self.next() % end) as u32
    }

    fn one_of(&mut self, choices: &[u32]) -> u32 {
        choices[self.next() as usize % choices.len()]
    }

    /// Mostly a small number, now and then one at an edge.
    fn around(&mut self, end: u64, edges: &[u32]) -> u32 {
        if self.below(25) == 0 { self.one_of(edges) } else { self.below(end) }
    }

    fn row(&mut self) -> Vec<u64> {
        let cells = self.one_of(&[0, 2, 9, 20, 256, 256, 256, 300]);
        (0..cells).map(|_| self.next()).collect()
    }
}

const REELS: [u32; 8] = [0, 1, 2, 999_999, 1_000_000, 1_000_001, 40_000, u32::MAX];
const LARGE: [u32; 7] = [0, 1, 255, 256, 32_768, 32_769, u32::MAX];

/// How often each number was refused; 0 stands for an answer.
#[derive(Default)]
struct Seen(BTreeMap<u32, usize>);

impl Seen {
    fn count<T: Debug + PartialEq>(&mut self, what: &str, ours: Result<T, Refusal>, theirs: Result<T, Refusal>) {
        assert!(ours == theirs, "{what}: proved {ours:?}, by hand {theirs:?}");
        *self.0.entry(ours.map_or_else(|refusal| refusal.number, |_| 0)).or_default() += 1;
    }

    /// Every way that a call can end must have come up.
    fn report(&self, what: &str, numbers: &[u32]) {
        for number in numbers {
            assert!(self.0.contains_key(number), "{what}: {number} never came up");
        }
        let inputs: usize = self.0.values().sum();
        let refused = inputs - self.0[&0];
        println!("{what}: {inputs} inputs alike, {refused} of them refused, by the numbers {:?}", &numbers[1..]);
    }
}

fn plan(numbers: &mut Numbers) -> [u32; 5] {
    let n1 = numbers.around(60, &LARGE);
    let ac1 = numbers.around(6, &LARGE);
    if numbers.below(2) == 0 {
        return [n1, ac1, ac1.wrapping_add(1), 0, numbers.one_of(&[ac1, ac1, ac1, 0])];
    }
    let re1 = ac1.wrapping_add(1 + numbers.below(4));
    [n1, ac1, re1, numbers.around(60, &LARGE), re1.wrapping_sub(1).wrapping_add(numbers.below(3))]
}

fn chances(numbers: &mut Numbers) {
    let mut seen = Seen::default();
    for i in 0..20_000 {
        let rule = numbers.one_of(&[1, 1, 1, 1, 1, 2, 2, 2, 2, 2, 1, 1, 2, 2, 0, 3]);
        let reel = numbers.around(400, &REELS);
        let bad = numbers.around(u64::from(reel).min(400) + 1, &REELS);
        let plan = plan(numbers);
        let (mut low, mut high) = (numbers.row(), numbers.row());
        let (mut low_by_hand, mut high_by_hand) = (low.clone(), high.clone());
        let what = format!("chance {i}: rule {rule}, reel {reel}, bad {bad}, plan {plan:?}");
        let ours = linked::chance(rule, reel, bad, plan, &mut low, &mut high);
        let theirs = plain::chance(rule, reel, bad, plan, &mut low_by_hand, &mut high_by_hand);
        seen.count(&what, ours, theirs);
        assert!(low == low_by_hand && high == high_by_hand, "{what}: the rows differ");
    }
    seen.report("chance", &[0, 21, 22, 23, 24, 31, 32, 33, 61]);
}

fn sizes(numbers: &mut Numbers) {
    let mut seen = Seen::default();
    for i in 0..20_000 {
        let rule = numbers.one_of(&[1, 1, 1, 1, 1, 1, 1, 1, 1, 2, 2, 0, 3]);
        let reel = numbers.around(300, &REELS);
        let tolerance = numbers.around(u64::from(reel).min(300) + 1, &REELS);
        let limit = numbers.one_of(&[0, 1, 1_000, 50_000, 100_000, 500_000, 700_000, 999_999, 1_000_000]);
        let accept = numbers.around(6, &[0, 1, 255, 256, u32::MAX]);
        let (mut low, mut high) = (numbers.row(), numbers.row());
        let (mut low_by_hand, mut high_by_hand) = (low.clone(), high.clone());
        let what =
            format!("smallest {i}: rule {rule}, reel {reel}, tolerance {tolerance}, limit {limit}, accept {accept}");
        let ours = linked::smallest(rule, reel, tolerance, limit, accept, &mut low, &mut high);
        let theirs = plain::smallest(rule, reel, tolerance, limit, accept, &mut low_by_hand, &mut high_by_hand);
        seen.count(&what, ours, theirs);
        assert!(low == low_by_hand && high == high_by_hand, "{what}: the rows differ");
    }
    seen.report("smallest", &[0, 21, 22, 23, 25, 26, 27, 28, 61]);
}

fn addresses(numbers: &mut Numbers) {
    let (mut found, mut named) = (Seen::default(), Seen::default());
    for i in 0..200_000 {
        let scheme = numbers.one_of(&[1, 2, 3, 1, 2, 3, 1, 2, 3, 1, 2, 3, 0, 4]);
        let reel = numbers.one_of(&[0, 1, 14_400, 1_000_000, 1_000_000, 2_073_600, 3_000_000, u32::MAX]);
        let whole = numbers.around(40_000, &[0, 1, 62_500, 86_400, 107_374_183, u32::MAX]);
        let part = numbers.around(30, &[15, 16, 23, 24, 39, 40, u32::MAX]);
        let what = format!("locate {i}: scheme {scheme}, reel {reel}, {whole} + {part}");
        found.count(&what, linked::locate(scheme, reel, whole, part), plain::locate(scheme, reel, whole, part));
        let frame = numbers.around(1_200_000, &[0, reel, reel.wrapping_sub(1), u32::MAX]);
        let what = format!("address {i}: scheme {scheme}, reel {reel}, frame {frame}");
        named.count(&what, linked::address(scheme, reel, frame), plain::address(scheme, reel, frame));
    }
    found.report("locate", &[0, 11, 12, 61]);
    named.report("address", &[0, 12, 61]);
}

pub fn compare() {
    let numbers = &mut Numbers(0);
    chances(numbers);
    sizes(numbers);
    addresses(numbers);
}
