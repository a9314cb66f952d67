//! Whole runs over both receivers: events sent as plain packets, as primaries of redundant packets
//! and as copies before them, with losses, repeats, any order, and strangers between. The copies do
//! not stand in for the marked first report. The list is exactly the events sent.

use crate::both::Both;
use crate::make::blocks::{Block, data, payload, redundant_for};
use crate::make::codes::member;
use crate::make::packets::{carrying, damage, packet_for};
use crate::make::tables::empty_table;
use crate::paper::codes::Codes;
use crate::paper::redundant::{self as paper, event_blocks};
use crate::paper::table::{self, Table};
use crate::random::Random;
use crate::redundant::receive_redundant;
use crate::runs::{Sent, arriving, events, reorder};
use crate::tables::receive;
use twimbor::{Event, Report};

const RUNS: usize = 3_000;

/// What arrives, to be handed to one of the receivers.
enum Arrival {
    /// To 01's receiver.
    Plain(Vec<u8>),
    /// To the receiver of redundant packets, which takes so many blocks and refuses so many.
    Redundant(Vec<u8>, usize, usize),
}

/// The bytes of a sent report's payload, as they are sent.
fn payload_of(packet: &[u8]) -> Vec<u8> {
    packet[12..].to_vec()
}

/// Up to four blocks before the last one of a packet, and how many of these are copies of sent
/// reports and how many are refused. The others are of other types.
fn before(
    random: &Random,
    table: &Table,
    timestamp: u32,
    sent: &[Sent],
) -> (Vec<Block>, usize, usize) {
    let near = |(report, _): &&Sent| timestamp.wrapping_sub(report.timestamp) < 16_384;
    let near: Vec<_> = sent.iter().filter(near).collect();
    let other = (table.payload_type + 1 + random.below(127) as u8) % 128;
    let (mut blocks, mut copies, mut refused) = (Vec::new(), 0, 0);
    for _ in 0..random.index(5) {
        let offset = random.below(16_384) as u16;
        blocks.push(match random.below(6) {
            0 => Block { payload_type: other, offset, data: data(random) },
            1 => {
                refused += 1;
                let outside = member(random, &Codes(table.codes.0.map(|is_in| !is_in)));
                let data = match outside {
                    Some(code) if random.one_in(5) => vec![code, 0, 1, 1],
                    _ => random.pick(&[&[][..], &[5], &[5, 0, 0, 0], &[5; 8]]).to_vec(),
                };
                Block { payload_type: table.payload_type, offset, data }
            }
            _ if !near.is_empty() => {
                copies += 1;
                let (report, packet) = random.pick(&near);
                let offset = timestamp.wrapping_sub(report.timestamp) as u16;
                Block { payload_type: table.payload_type, offset, data: payload_of(packet) }
            }
            _ => continue,
        });
    }
    (blocks, copies, refused)
}

/// One way for a sent report to arrive.
fn arrival(random: &Random, table: &Table, this: &Sent, sent: &[Sent]) -> Arrival {
    let (report, packet) = this;
    let is_redundant = table.both_types != 0 && !random.one_in(4);
    if !is_redundant {
        let plain = packet.clone();
        return if random.bool() { Arrival::Plain(plain) } else { Arrival::Redundant(plain, 1, 0) };
    }
    let redundant = Report { payload_type: u32::from(table.redundant_type), ..*report };
    // The report as a copy, before a primary of another type, which may be marked.
    if !report.marker && random.one_in(3) {
        let offset = random.pick(&[0, 1, 16_383, random.below(16_384) as u16]);
        let timestamp = report.timestamp.wrapping_add(u32::from(offset));
        let (mut blocks, copies, refused) = before(random, table, timestamp, sent);
        let copy = Block { payload_type: table.payload_type, offset, data: payload_of(packet) };
        blocks.insert(random.index(blocks.len() + 1), copy);
        let other = (table.payload_type + 1 + random.below(127) as u8) % 128;
        blocks.push(Block { payload_type: other, offset: 0, data: data(random) });
        let header = Report { timestamp, marker: random.bool(), ..redundant };
        let packet = carrying(random, &header, &payload(&blocks));
        return Arrival::Redundant(packet, copies + 1, refused);
    }
    let (mut blocks, copies, refused) = before(random, table, report.timestamp, sent);
    let (payload_type, data) = (table.payload_type, payload_of(packet));
    blocks.push(Block { payload_type, offset: 0, data });
    let packet = carrying(random, &redundant, &payload(&blocks));
    Arrival::Redundant(packet, copies + 1, refused)
}

/// A copy of a report as one of its own that is not marked.
fn unmarked((report, packet): &Sent) -> Sent {
    let mut copy = packet.clone();
    copy[1] &= 0x7F;
    (Report { marker: false, ..*report }, copy)
}

/// Hands over bytes that are refused, if such are found at once: by 01's receiver, or whole by the
/// other one.
fn stranger(random: &Random, both: &mut Both, sent: &[Sent]) -> usize {
    let mut packet = match random.below(3) {
        0 => packet_for(random, &both.paper),
        1 => redundant_for(random, &both.paper),
        _ if sent.is_empty() => Vec::new(),
        _ => match arrival(random, &both.paper, &random.pick(sent), sent) {
            Arrival::Plain(packet) | Arrival::Redundant(packet, ..) => packet,
        },
    };
    if random.bool() {
        damage(random, &mut packet);
    }
    if random.bool() {
        if table::receive(&mut both.paper.clone(), &packet).is_ok() {
            return 0;
        }
        assert!(receive(both, &packet).is_err());
    } else {
        let blocks = event_blocks(&both.paper, &packet).map_or(0, |(_, blocks)| blocks.len());
        let room = random.pick(&[blocks.saturating_sub(1), blocks]);
        if paper::receive(&mut both.paper.clone(), &packet, room).is_ok() {
            return 0;
        }
        assert!(receive_redundant(random, both, &packet, room).is_err());
    }
    1
}

#[test]
fn the_list_is_what_was_sent_in_blocks() {
    let random = &Random::new(23);
    let (mut sent_events, mut plain, mut redundant, mut strangers) = (0, 0, 0, 0);
    let (mut taken, mut refused, mut first_openings) = (0, 0, 0);
    for _ in 0..RUNS {
        let mut both = Both::of(empty_table(random));
        first_openings += usize::from(both.paper.both_types == 0);
        let planned = events(random, &both.paper);
        let arrive = |(event, size): &(_, _)| arriving(random, &both.paper, event, *size);
        let sent: Vec<Sent> = planned.iter().flat_map(arrive).collect();
        let each = |this: &Sent| arrival(random, &both.paper, this, &sent);
        let mut arrivals: Vec<_> = sent.iter().map(each).collect();
        let copied = sent.iter().filter(|_| random.one_in(8)).map(unmarked);
        arrivals.extend(copied.map(|copy| each(&copy)));
        reorder(random, &mut arrivals);
        for arrival in &arrivals {
            match arrival {
                Arrival::Plain(packet) => {
                    assert!(receive(&mut both, packet).is_ok());
                    plain += 1;
                }
                Arrival::Redundant(packet, ok, not) => {
                    let room = ok + not + random.index(2);
                    let answers = receive_redundant(random, &mut both, packet, room).unwrap();
                    assert_eq!(answers.iter().filter(|answer| answer.is_ok()).count(), *ok);
                    assert_eq!(answers.len(), ok + not);
                    (redundant, taken, refused) = (redundant + 1, taken + ok, refused + not);
                }
            }
            if random.one_in(3) {
                strangers += stranger(random, &mut both, &sent);
            }
        }
        let events: Vec<Event> = planned.into_iter().map(|(event, _)| event).collect();
        assert_eq!(both.library.events().as_ref(), Ok(&events), "{:?}", both.library);
        sent_events += events.len();
    }
    println!(
        "runs: {RUNS}, of them on first openings: {first_openings}, events sent and listed: \
         {sent_events}, packets to 01's receiver: {plain}, to the other: {redundant} with blocks \
         taken: {taken} and refused: {refused}, strangers refused: {strangers}"
    );
    assert!(refused > 0 && taken > redundant && first_openings > 0);
}
