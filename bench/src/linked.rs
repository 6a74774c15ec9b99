//! The proved calls, as a program links them.
use crate::plain::Refusal;

#[repr(C)]
#[derive(Clone, Copy)]
struct Refused {
    number: u32,
    place: u32,
    layer: u8,
}

#[repr(C)]
#[derive(Clone, Copy)]
struct Ends {
    refused: Refused,
    lo: u64,
    hi: u64,
}

#[repr(C)]
#[derive(Clone, Copy)]
struct Number {
    refused: Refused,
    value: u32,
}

#[repr(C)]
#[derive(Clone, Copy)]
struct Address {
    refused: Refused,
    whole: u32,
    part: u32,
}

unsafe extern "C" {
    fn kifolanto_chance(
        rule: u32,
        reel: u32,
        bad: u32,
        n1: u32,
        ac1: u32,
        re1: u32,
        n2: u32,
        ac2: u32,
        low: *mut u64,
        low_cells: usize,
        high: *mut u64,
        high_cells: usize,
    ) -> Ends;

    fn kifolanto_smallest(
        rule: u32,
        reel: u32,
        tolerance: u32,
        limit: u32,
        accept: u32,
        low: *mut u64,
        low_cells: usize,
        high: *mut u64,
        high_cells: usize,
    ) -> Number;

    fn kifolanto_locate(scheme: u32, reel: u32, whole: u32, part: u32) -> Number;

    fn kifolanto_address(scheme: u32, reel: u32, frame: u32) -> Address;
}

/// An answer as a result; a refused one must carry no value, and an answered one no refusal.
fn read<T: PartialEq>(refused: Refused, value: T, none: T) -> Result<T, Refusal> {
    let Refused { number, place, layer } = refused;
    if number == 0 {
        assert!(place == 0 && layer == 0, "an answer with a refusal's place or letter");
        return Ok(value);
    }
    assert!(value == none, "a refusal with a value");
    Err(Refusal { number, place, layer: layer as char })
}

pub fn chance(
    rule: u32,
    reel: u32,
    bad: u32,
    plan: [u32; 5],
    low: &mut [u64],
    high: &mut [u64],
) -> Result<(u64, u64), Refusal> {
    let [n1, ac1, re1, n2, ac2] = plan;
    // a slice's pointer is never null, and two `&mut` never overlap
    let r = unsafe {
        kifolanto_chance(
            rule,
            reel,
            bad,
            n1,
            ac1,
            re1,
            n2,
            ac2,
            low.as_mut_ptr(),
            low.len(),
            high.as_mut_ptr(),
            high.len(),
        )
    };
    read(r.refused, (r.lo, r.hi), (0, 0))
}

pub fn smallest(
    rule: u32,
    reel: u32,
    tolerance: u32,
    limit: u32,
    accept: u32,
    low: &mut [u64],
    high: &mut [u64],
) -> Result<u32, Refusal> {
    let r = unsafe {
        kifolanto_smallest(
            rule,
            reel,
            tolerance,
            limit,
            accept,
            low.as_mut_ptr(),
            low.len(),
            high.as_mut_ptr(),
            high.len(),
        )
    };
    read(r.refused, r.value, 0)
}

pub fn locate(scheme: u32, reel: u32, whole: u32, part: u32) -> Result<u32, Refusal> {
    let r = unsafe { kifolanto_locate(scheme, reel, whole, part) };
    read(r.refused, r.value, 0)
}

pub fn address(scheme: u32, reel: u32, frame: u32) -> Result<(u32, u32), Refusal> {
    let r = unsafe { kifolanto_address(scheme, reel, frame) };
    read(r.refused, (r.whole, r.part), (0, 0))
}
