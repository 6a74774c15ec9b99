//! The same working, written by hand in plain Rust and independently of the proved code.

/// Why a call is refused, and where.
#[derive(Clone, Copy, PartialEq, Eq, Debug)]
pub struct Refusal {
    pub number: u32,
    pub place: u32,
    pub layer: char,
}

fn refuse<T>(number: u32, place: u32, layer: char) -> Result<T, Refusal> {
    Err(Refusal { number, place, layer })
}

const WHOLE: u64 = 1 << 40;

/// A draw rule: how many good and bad frames may follow.
trait Rule {
    fn longest(reel: u32) -> u32;
    fn ways(reel: u32, drawn: u32) -> u64;
    fn follow(reel: u32, bad: u32, drawn: u32, bad_drawn: u32) -> (u64, u64);
}

struct Without;

impl Rule for Without {
    fn longest(reel: u32) -> u32 {
        reel
    }

    fn ways(reel: u32, drawn: u32) -> u64 {
        (reel - drawn) as u64
    }

    #[inline(always)]
    fn follow(reel: u32, bad: u32, drawn: u32, bad_drawn: u32) -> (u64, u64) {
        if bad_drawn > drawn || bad_drawn > bad || drawn - bad_drawn > reel - bad {
            return (0, 0);
        }
        ((reel - bad - (drawn - bad_drawn)) as u64, (bad - bad_drawn) as u64)
    }
}

struct With;

impl Rule for With {
    fn longest(_reel: u32) -> u32 {
        32_768
    }

    fn ways(reel: u32, _drawn: u32) -> u64 {
        reel as u64
    }

    #[inline(always)]
    fn follow(reel: u32, bad: u32, _drawn: u32, _bad_drawn: u32) -> (u64, u64) {
        // a cell that no list can have holds 0, so its counts do not matter
        ((reel - bad) as u64, bad as u64)
    }
}

fn start(row: &mut [u64]) {
    row.fill(0);
    row[0] = WHOLE;
}

/// One draw: each cell takes what it keeps and what the cell before hands on.
#[inline(always)]
fn draw<R: Rule>(reel: u32, bad: u32, drawn: u32, low: &mut [u64], high: &mut [u64]) {
    let ways = R::ways(reel, drawn);
    let (mut low_before, mut high_before) = (0, 0);
    for (d, (l, h)) in low.iter_mut().zip(high.iter_mut()).enumerate() {
        let (good, worse) = R::follow(reel, bad, drawn, d as u32);
        let (old_low, old_high) = (*l, *h);
        *l = (old_low * good + low_before) / ways;
        *h = (old_high * good + high_before + ways - 1) / ways;
        low_before = old_low * worse;
        high_before = old_high * worse;
    }
}

/// The chance that the plan n1, Ac1, Re1, n2, Ac2 passes, enclosed.
pub fn chance(
    rule: u32,
    reel: u32,
    bad: u32,
    plan: [u32; 5],
    low: &mut [u64],
    high: &mut [u64],
) -> Result<(u64, u64), Refusal> {
    match rule {
        1 => enclosed::<Without>(reel, bad, plan, low, high),
        2 => enclosed::<With>(reel, bad, plan, low, high),
        _ => refuse(61, rule, 'C'),
    }
}

fn enclosed<R: Rule>(
    reel: u32,
    bad: u32,
    plan: [u32; 5],
    low: &mut [u64],
    high: &mut [u64],
) -> Result<(u64, u64), Refusal> {
    let [n1, ac1, re1, n2, ac2] = plan;
    if n1 == 0 || n1 as u64 + n2 as u64 > 32_768 {
        return refuse(31, 1, 'P');
    }
    if ac2 > 255 {
        return refuse(32, 5, 'P');
    }
    let agree = if n2 == 0 {
        re1 as u64 == ac1 as u64 + 1 && ac2 == ac1
    } else {
        re1 as u64 >= ac1 as u64 + 2 && re1 <= ac2 + 1
    };
    if !agree {
        return refuse(33, 3, 'P');
    }
    if !(1..=1_000_000).contains(&reel) {
        return refuse(21, 0, 'R');
    }
    if bad > reel {
        return refuse(22, bad, 'R');
    }
    if n1 + n2 > R::longest(reel) {
        return refuse(24, n1 + n2, 'R');
    }
    let cells = ac2 as usize + 1;
    if low.len() < cells || high.len() < cells {
        return refuse(23, cells as u32, 'R');
    }
    let (low, high) = (&mut low[..cells], &mut high[..cells]);
    start(low);
    start(high);
    for k in 0..n1 {
        draw::<R>(reel, bad, k, low, high);
    }
    let passed = ac1 as usize + 1;
    let mut lo: u64 = low[..passed].iter().sum();
    let mut hi: u64 = high[..passed].iter().sum();
    if n2 > 0 {
        for row in [&mut *low, &mut *high] {
            row[..passed].fill(0);
            row[(re1 as usize).min(cells)..].fill(0);
        }
        for k in n1..n1 + n2 {
            draw::<R>(reel, bad, k, low, high);
        }
        lo += low.iter().sum::<u64>();
        hi += high.iter().sum::<u64>();
    }
    Ok((lo, hi.min(WHOLE)))
}

fn within(units: u64, limit: u32) -> bool {
    units as u128 * 1_000_000 <= limit as u128 * WHOLE as u128
}

/// The smallest single sample that keeps the limit.
pub fn smallest(
    rule: u32,
    reel: u32,
    tolerance: u32,
    limit: u32,
    accept: u32,
    low: &mut [u64],
    high: &mut [u64],
) -> Result<u32, Refusal> {
    match rule {
        1 => searched::<Without>(reel, tolerance, limit, accept, low, high),
        2 => searched::<With>(reel, tolerance, limit, accept, low, high),
        _ => refuse(61, rule, 'C'),
    }
}

fn searched<R: Rule>(
    reel: u32,
    tolerance: u32,
    limit: u32,
    accept: u32,
    low: &mut [u64],
    high: &mut [u64],
) -> Result<u32, Refusal> {
    if !(1..=1_000_000).contains(&reel) {
        return refuse(21, 0, 'R');
    }
    if tolerance == 0 || tolerance > reel {
        return refuse(22, tolerance, 'R');
    }
    if !(1..=999_999).contains(&limit) {
        return refuse(26, limit, 'R');
    }
    if accept > 255 {
        return refuse(25, accept, 'R');
    }
    let cells = accept as usize + 1;
    if low.len() < cells || high.len() < cells {
        return refuse(23, cells as u32, 'R');
    }
    let (low, high) = (&mut low[..cells], &mut high[..cells]);
    start(low);
    start(high);
    let last = R::longest(reel).min(32_768);
    let mut lo_before = WHOLE;
    for n in 1..=last {
        draw::<R>(reel, tolerance, n - 1, low, high);
        let lo: u64 = low.iter().sum();
        let hi: u64 = high.iter().sum::<u64>().min(WHOLE);
        if within(hi, limit) {
            return if within(lo_before, limit) { refuse(27, n - 1, 'R') } else { Ok(n) };
        }
        lo_before = lo;
    }
    refuse(if within(lo_before, limit) { 27 } else { 28 }, last, 'R')
}

/// Frames to the unit and reach of a scheme, by its code.
fn scheme(code: u32) -> Option<(u64, u64)> {
    match code {
        1 => Some((16, 1_000_000)),
        2 => Some((40, 1_000_000)),
        3 => Some((24, 2_073_600)),
        _ => None,
    }
}

pub fn locate(code: u32, reel: u32, whole: u32, part: u32) -> Result<u32, Refusal> {
    let Some((unit, reach)) = scheme(code) else {
        return refuse(61, code, 'C');
    };
    if part as u64 >= unit {
        return refuse(11, 2, 'A');
    }
    let frame = whole as u64 * unit + part as u64;
    if frame >= reach.min(reel as u64) {
        return refuse(12, 1, 'A');
    }
    Ok(frame as u32)
}

pub fn address(code: u32, reel: u32, frame: u32) -> Result<(u32, u32), Refusal> {
    let Some((unit, reach)) = scheme(code) else {
        return refuse(61, code, 'C');
    };
    if frame as u64 >= reach.min(reel as u64) {
        return refuse(12, 1, 'A');
    }
    Ok(((frame as u64 / unit) as u32, (frame as u64 % unit) as u32))
}
