//! Reports in any order, any number of times, leave the segments that the set of them says.

use crate::both::{library, segment};
use crate::make::codes::few;
use crate::make::tables::empty_table;
use crate::paper::packet;
use crate::paper::table::{self as paper, Segment, Table};
use crate::random::Random;
use std::collections::BTreeMap;
use twimbor::Report;

/// What a report says to a table; few pairs of offset and code, so that many say something of one.
fn said(random: &Random, codes: &[u8]) -> Segment {
    let volume = random.below(64) as u8;
    Segment {
        offset: u64::from(random.pick(&[0, 1, 65_535, 131_070, random.below(1 << 31)])),
        code: random.pick(codes),
        duration: random.pick(&[65_535, random.u16().max(1)]),
        volume,
        quietest: volume,
        ended: random.one_in(4),
        marked: random.one_in(4),
    }
}

fn packet_of(random: &Random, table: &Table, said: &Segment) -> Vec<u8> {
    packet::bytes(&Report {
        marker: said.marked,
        payload_type: u32::from(table.payload_type),
        sequence: random.u16(),
        timestamp: table.origin.wrapping_add(said.offset as u32),
        ssrc: table.ssrc,
        code: u32::from(said.code),
        ended: said.ended,
        volume: u32::from(said.volume),
        duration: u32::from(said.duration),
    })
}

#[test]
fn order_and_repeats_play_no_part() {
    let random = &Random::new(10);
    for _ in 0..5_000 {
        let table = empty_table(random);
        let codes = few(random, &table.codes, 3);
        let n = if codes.is_empty() { 0 } else { random.below(100) };
        let reports: Vec<_> = (0..n).map(|_| said(random, &codes)).collect();
        let mut derived = BTreeMap::new();
        for said in &reports {
            let known = derived.entry((said.offset, said.code)).or_insert(*said);
            *known = paper::both(known, said);
        }
        for repeats in [1, 3] {
            let mut handed = reports.repeat(repeats);
            random.shuffle(&mut handed);
            let mut received = library(&table);
            for said in &handed {
                assert!(received.receive(&packet_of(random, &table, said)).is_ok());
            }
            assert!(received.segments().eq(derived.values().map(segment)));
        }
    }
}
