//! Whole runs: events sent by plans to one table, with losses, repeats, any order, and strangers
//! between. As long as what is needed arrives, the list is exactly the events sent.

use crate::both::{Both, library_codes};
use crate::lists::list;
use crate::make::codes::few;
use crate::make::packets::{damage, packet_for};
use crate::make::tables::empty_table;
use crate::paper::table::{self as paper, Table};
use crate::random::Random;
use crate::tables::receive;
use twimbor::{Event, Plan, Report};

const RUNS: usize = 4_000;

/// Events that do not overlap, within 01's sizes for one table, each with its own segment size;
/// often one right after another. A table whose set is empty can have none.
pub fn events(random: &Random, table: &Table) -> Vec<(Event, u32)> {
    let codes = few(random, &table.codes, 1 + random.index(3));
    let mut events = Vec::new();
    if codes.is_empty() {
        return events;
    }
    let mut room = random.pick(&[4, 30, 128]);
    let top = random.pick(&[0x7FFF_0000, 0x7FFF_FFC0]);
    let mut end = random.pick(&[0, top, random.u32() >> 1, random.u32() >> 9]);
    loop {
        let start = end + random.pick(&[0, 0, 1, 65_535, random.below(100_000)]);
        let any = 1 + random.below(65_535);
        let size = random.pick(&[1, 2, 15_983, 65_535, 65_535, any]);
        let full = size * random.below(random.pick(&[2, 2, 4, 16]));
        let length = (full + random.pick(&[0, 1, size, random.below(size)])).max(1);
        if length.div_ceil(size) > room || start + length >= 1 << 31 {
            return events;
        }
        room -= length.div_ceil(size);
        end = start + length;
        let (code, volume) = (random.pick(&codes), random.below(64) as u8);
        let quietest = volume;
        let event = Event { code, start, length, volume, quietest, began: true, ended: true };
        events.push((event, size));
    }
}

/// A report that is sent, and its packet.
pub type Sent = (Report, Vec<u8>);

/// The reports of an event that arrive: those needed, and some of the others, some several times.
pub fn arriving(random: &Random, table: &Table, event: &Event, segment_size: u32) -> Vec<Sent> {
    let often = (event.length / (1 + random.below(30))).clamp(1, 65_535);
    let plan = Plan {
        payload_type: u32::from(table.payload_type),
        ssrc: table.ssrc,
        sequence: random.u16(),
        start: table.origin.wrapping_add(event.start),
        code: u32::from(event.code),
        volume: u32::from(event.volume),
        length: event.length,
        period: random.pick(&[65_535, 65_534, 30_000, often]),
        segment_size,
    };
    let codes = library_codes(&table.codes);
    let packets: Vec<_> = plan.packets(codes).unwrap().map(Vec::from).collect();
    let reports = packets.iter().map(|packet| Report::read(codes, packet).unwrap());
    let reports: Vec<_> = reports.collect();
    // Which reports meet each need: the first; a full one of each segment before the last; an end.
    let all = 0..reports.len();
    let mut needs = vec![vec![0], all.clone().filter(|&i| reports[i].ended).collect()];
    for before in (0..(event.length - 1) / segment_size).map(|segment| segment * segment_size) {
        let full = (plan.start.wrapping_add(before), segment_size);
        let is_full = |i: &usize| (reports[*i].timestamp, reports[*i].duration) == full;
        needs.push(all.clone().filter(is_full).collect());
    }
    let mut numbers: Vec<usize> = needs.iter().map(|need| random.pick(need)).collect();
    let kept = random.pick(&[0, 20, 100]);
    numbers.extend(all.filter(|_| random.below(100) < kept));
    numbers.extend(numbers.clone().into_iter().filter(|_| random.one_in(5)));
    numbers.sort();
    numbers.into_iter().map(|i| (reports[i], packets[i].clone())).collect()
}

/// Packets in another order: shuffled, moved a little, or as they are.
pub fn reorder<T>(random: &Random, packets: &mut [T]) {
    match random.below(3) {
        0 => random.shuffle(packets),
        1 => packets.chunks_mut(5).for_each(|chunk| random.shuffle(chunk)),
        _ => {}
    }
}

/// Receives bytes that the table refuses, if such bytes are found at once.
fn stranger(random: &Random, both: &mut Both, sent: &[Vec<u8>]) -> usize {
    let mut packet = packet_for(random, &both.paper);
    if random.one_in(3) && !sent.is_empty() {
        packet = random.pick(sent);
        damage(random, &mut packet);
    }
    if paper::receive(&mut both.paper.clone(), &packet).is_ok() {
        return 0;
    }
    assert!(receive(both, &packet).is_err());
    1
}

#[test]
fn the_list_is_what_was_sent() {
    let random = &Random::new(9);
    let (mut sent_events, mut cut_short, mut taken, mut strangers, mut full) = (0, 0, 0, 0, 0);
    for _ in 0..RUNS {
        let mut both = Both::of(empty_table(random));
        let planned = events(random, &both.paper);
        let arrive = |(event, size): &(_, _)| arriving(random, &both.paper, event, *size);
        let sent = planned.iter().flat_map(arrive);
        let mut packets: Vec<_> = sent.map(|(_, packet)| packet).collect();
        reorder(random, &mut packets);
        for packet in &packets {
            assert!(receive(&mut both, packet).is_ok());
            if random.one_in(2) {
                strangers += stranger(random, &mut both, &packets);
            }
        }
        strangers += stranger(random, &mut both, &packets);
        let table = &both.library;
        cut_short += planned.iter().filter(|(e, size)| e.length > *size && *size < 65_535).count();
        let events: Vec<_> = planned.into_iter().map(|(event, _)| event).collect();
        sent_events += events.len();
        let room = events.len() + random.index(3);
        assert_eq!(table.events().as_ref(), Ok(&events), "{table:?}");
        for (k, event) in (1..).zip(&events) {
            assert_eq!(table.event_at(k), Ok(*event));
        }
        assert!(list(random, (table, &Ok(events)), room).is_ok());
        taken += packets.len();
        full += usize::from(table.head.count == 128);
    }
    println!(
        "runs: {RUNS}, events sent and listed: {sent_events}, of them cut into short segments: \
         {cut_short}, packets taken: {taken}, strangers refused: {strangers}, tables full: {full}"
    );
    assert!(cut_short > 0 && full > 0);
}
