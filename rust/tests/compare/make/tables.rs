//! Tables, valid and not, and the records that lists are lent with.

use super::codes::{codes, few};
use crate::paper::codes::EMPTY;
use crate::paper::table::{Segment, Table};
use crate::random::Random;
use std::collections::BTreeMap;
use twimbor::Event;

/// Two numbers that a place can say, of 8 bits and of 6: often equal or one apart, often at an end.
fn any_volumes(random: &Random) -> (u8, u8) {
    let number = || random.pick(&[0, 1, 62, 63, 64, 65, 255, random.u8(), random.u8() >> 2]);
    let volume: u8 = number();
    let one_up = volume.saturating_add(1);
    let near = random.pick(&[volume, volume, one_up, volume.saturating_sub(1)]);
    let quietest = random.pick(&[near, number()]);
    (volume, random.pick(&[quietest.min(63), quietest % 64]))
}

/// The smallest and the largest of some reports' volumes.
fn volumes(random: &Random) -> (u8, u8) {
    let number = || random.pick(&[0, 63, random.below(64) as u8, random.below(64) as u8]);
    let (one, other) = (number(), number());
    let near = random.pick(&[one, one, (one + 1).min(63)]);
    let other = random.pick(&[near, other]);
    (one.min(other), one.max(other))
}

/// A segment with any numbers that a place can say: an offset of 56 bits and volumes of 8 and 6.
pub fn any_segment(random: &Random) -> Segment {
    let (volume, quietest) = any_volumes(random);
    Segment {
        offset: random.u64() >> (8 + random.below(40)),
        code: random.u8(),
        duration: random.u16(),
        volume,
        quietest,
        ended: random.bool(),
        marked: random.bool(),
    }
}

pub fn any_event(random: &Random) -> Event {
    Event {
        code: random.u8(),
        start: random.u32(),
        length: random.u32(),
        volume: random.u8(),
        quietest: random.u8(),
        began: random.bool(),
        ended: random.bool(),
    }
}

/// The event's type, which opening it was, and the other type. Of the second opening every byte but
/// 0 tells; in a table of the first the other type is any byte, and plays no part.
fn types(random: &Random) -> (u8, u8, u8) {
    let payload_type = random.below(128) as u8;
    if random.bool() {
        return (payload_type, 0, random.pick(&[0, 96, payload_type, 200, random.u8()]));
    }
    let other = (payload_type + 1 + random.below(127) as u8) % 128;
    (payload_type, random.pick(&[1, 1, 2, 255, random.u8().max(1)]), other)
}

/// A valid table whose segments often continue one another, or miss it by one unit, with anything
/// in the places above. One whose set is empty holds none.
pub fn table(random: &Random) -> Table {
    let codes = codes(random);
    let (small, few) = (random.index(6), few(random, &codes, 1 + random.index(16)));
    let most = if few.is_empty() { 0 } else { 128 };
    let wanted = random.pick(&[small, small, random.index(129), 127, 128]).min(most);
    let (marks, ends) = (1 + random.below(9), 2 + random.below(9));
    let size = random.pick(&[65_535, 65_534, 15_983, 400, 2, 1, random.u16().max(1)]);
    let base = random.pick(&[0, (1 << 31) - 16 * u64::from(size), u64::from(random.u32() >> 1)]);
    let code = few.first().copied().unwrap_or(0);
    let (mut held, mut last) = (BTreeMap::new(), Segment { code, ..Segment::default() });
    while held.len() < wanted {
        let grid = base + u64::from(size) * u64::from(random.below(24));
        let end = last.offset + u64::from(last.duration);
        let any = u64::from(random.pick(&[random.u32(), 0x7FFF_FFFF]));
        let near = random.pick(&[grid + 1, end + 1, end.saturating_sub(1)]);
        let one_off = random.pick(&[size.saturating_sub(1).max(1), size.saturating_add(1)]);
        let (volume, quietest) = volumes(random);
        last = Segment {
            offset: random.pick(&[grid, grid, grid, end, end, near, any]) % (1 << 31),
            code: random.pick(&[last.code, random.pick(&few)]),
            duration: random.pick(&[size, size, size, one_off, random.u16().max(1)]),
            volume,
            quietest,
            ended: random.one_in(ends),
            marked: random.one_in(marks),
        };
        held.insert((last.offset, last.code), last);
    }
    let mut segments = [(); 128].map(|_| any_segment(random));
    for (place, segment) in segments.iter_mut().zip(held.values()) {
        *place = *segment;
    }
    let (payload_type, both_types, redundant_type) = types(random);
    Table {
        payload_type,
        both_types,
        redundant_type,
        ssrc: random.u32(),
        origin: random.pick(&[0, 0xFFFF_FFF0, random.u32()]),
        codes,
        count: wanted,
        segments,
    }
}

/// An empty table: with zeros in all places, as opening leaves it, or any other that is valid.
pub fn empty_table(random: &Random) -> Table {
    let any = Table { count: 0, ..table(random) };
    if random.bool() { any } else { Table { segments: [Segment::default(); 128], ..any } }
}

/// A table with one test broken, often by one bit too high, or with any segment in one place. What
/// is changed may be in a place that holds none, or the other type of a table of the first opening;
/// then the table stays valid.
pub fn broken_table(random: &Random) -> Table {
    let mut table = table(random);
    let last = table.count.saturating_sub(1);
    let some = random.index(last + 1);
    match random.below(14) {
        0 => table.count = random.pick(&[129, 130, 255, 256, 1 << 31, 1 << 32, usize::MAX]),
        1 => table.payload_type = random.pick(&[128, 255]),
        2 => table.codes.0[usize::from(table.segments[some].code)] = false,
        3 => table.segments[some].duration = 0,
        4 => (table.segments[some].volume, table.segments[some].quietest) = any_volumes(random),
        5 => table.segments[some] = any_segment(random),
        6 => table.segments[last].offset |= 1 << (31 + random.below(25)),
        7 => table.segments[last] = table.segments[some],
        8 => table.redundant_type = random.pick(&[128, 255, table.payload_type]),
        9 => table.segments[some].code ^= 1 << random.below(8),
        10 => table.codes = random.pick(&[EMPTY, codes(random)]),
        11 => {
            let volume = table.segments[some].volume.min(63); // above in a place that holds none
            table.segments[some].quietest = random.pick(&[volume.saturating_sub(1), volume, 63]);
        }
        12 => {
            table.segments[some].volume |= random.pick(&[64, 128, 192, 255]);
            table.segments[some].quietest |= random.pick(&[0, 63]);
        }
        _ => table.segments.swap(last, some),
    }
    table
}

/// A table on paper that is valid but for one segment's quietest, often by one bit too high, and
/// sometimes its volume. The library's table has no room for that, but may be made of such segments.
pub fn too_quiet_table(random: &Random) -> Table {
    let mut table = table(random);
    let some = random.index(table.count.max(1));
    let Segment { volume, quietest, .. } = &mut table.segments[some];
    let bit = random.pick(&[64, 128, 192]);
    *quietest = random.pick(&[64, 255, bit | *quietest, bit | *volume, 64 | random.u8()]);
    if random.one_in(3) {
        *volume = random.pick(&[63, 64, *quietest, *quietest - 1, random.u8()]);
    }
    table
}
