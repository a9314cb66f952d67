//! Random inputs, most of them near the edges of 01's rules.

pub mod blocks;
pub mod captures;
pub mod codes;
pub mod packets;
pub mod tables;

use crate::paper::codes::Codes;
use crate::random::Random;
use twimbor::{Plan, Report};

/// A number of a range, often at its ends, now and then outside.
pub fn number(random: &Random, low: u32, high: u32) -> u32 {
    match random.below(32) {
        0 => low.wrapping_sub(1),
        1 => high + 1,
        2 => low,
        3 => high,
        4 => random.u32(),
        _ => low + random.below(high - low + 1),
    }
}

pub fn report(random: &Random, codes: &Codes) -> Report {
    Report {
        marker: random.bool(),
        payload_type: number(random, 0, 127),
        sequence: random.u16(),
        timestamp: random.u32(),
        ssrc: random.u32(),
        code: codes::code(random, codes),
        ended: random.bool(),
        volume: number(random, 0, 63),
        duration: number(random, 1, 65_535),
    }
}

/// A segment size: the longest, short ones, any; now and then outside the range, also such that it
/// looks small if 16 of it are counted in 32 bits, or itself in 16.
fn segment_size(random: &Random) -> u32 {
    let small = 1 + random.below(40);
    let huge = (1 + random.below(15)) << 28 | small;
    match random.below(16) {
        0 => random.pick(&[0, 65_536, u32::MAX, 65_536 + small, huge]),
        1..=3 => small,
        4 => random.pick(&[1, 2, 400, 15_983, 65_534]),
        5..=8 => 65_535,
        _ => number(random, 1, 65_535),
    }
}

pub fn plan(random: &Random, codes: &Codes) -> Plan {
    let size = segment_size(random);
    let in_range = size.clamp(1, 65_535);
    let one_off = random.below(3).wrapping_sub(1);
    let length = match random.below(4) {
        0 => size.wrapping_mul(1 + random.below(16)).wrapping_add(one_off),
        1 => size.wrapping_mul(random.pick(&[0, 16, 16, 17])).wrapping_add(one_off),
        2 => 1 + random.below((16 * in_range).min(2_000)),
        _ => number(random, 1, 16 * in_range),
    };
    let period = match random.below(6) {
        0 => length % in_range,
        1 => random.pick(&[in_range / 2, in_range / 3, in_range.wrapping_add(one_off)]),
        2 => 1 + random.below(in_range),
        3 => random.pick(&[160, 400, 2_400, 65_534, 65_535]),
        _ => number(random, 1, 65_535),
    };
    Plan {
        payload_type: number(random, 0, 127),
        ssrc: random.u32(),
        sequence: random.pick(&[0, 65_535, random.u16()]),
        start: random.pick(&[0, 0xFFFF_FFF0, random.u32()]),
        code: codes::code(random, codes),
        volume: number(random, 0, 63),
        length,
        period,
        segment_size: size,
    }
}
