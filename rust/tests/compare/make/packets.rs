//! Packets: valid, with any form of header, damaged, and strange.

use super::report;
use crate::paper::table::{Segment, Table};
use crate::random::Random;
use twimbor::Report;

/// A packet with this payload and any form of header; the other numbers are the report's.
pub fn carrying(random: &Random, report: &Report, payload: &[u8]) -> Vec<u8> {
    let (mut csrcs, mut words, mut pad) = (0, None, 0);
    if random.bool() {
        csrcs = random.index(16);
        words = random.pick(&[None, Some(random.index(8))]);
        pad = random.pick(&[0, 1 + random.index(9), 1 + random.index(255)]);
    }
    let mut packet = vec![
        0x80 | u8::from(pad > 0) << 5 | u8::from(words.is_some()) << 4 | csrcs as u8,
        u8::from(report.marker) << 7 | report.payload_type as u8 & 127,
    ];
    packet.extend(report.sequence.to_be_bytes());
    packet.extend(report.timestamp.to_be_bytes());
    packet.extend(report.ssrc.to_be_bytes());
    packet.extend(random.bytes(4 * csrcs));
    if let Some(words) = words {
        packet.extend(random.bytes(2));
        packet.extend((words as u16).to_be_bytes());
        packet.extend(random.bytes(4 * words));
    }
    packet.extend(payload);
    if pad > 0 {
        packet.extend(random.bytes(pad - 1));
        packet.push(pad as u8);
    }
    packet
}

/// The four bytes of a report, with any R.
pub fn payload_of(random: &Random, report: &Report) -> Vec<u8> {
    let r_bit = u8::from(random.one_in(4)) << 6;
    let flags = u8::from(report.ended) << 7 | r_bit | report.volume as u8 & 63;
    let [.., d0, d1] = report.duration.to_be_bytes();
    vec![report.code as u8, flags, d0, d1]
}

/// A packet that carries a report, with any form of header; now and then damaged, or just bytes.
pub fn packet(random: &Random, report: &Report) -> Vec<u8> {
    if random.one_in(32) {
        return random.bytes(random.index(40));
    }
    let mut payload = payload_of(random, report);
    if random.one_in(8) {
        let packed = 4 * random.pick(&[2, 3, 1 + random.index(300)]);
        let bytes = random.pick(&[random.index(13), packed - 1, packed, packed + 1]);
        payload.resize_with(bytes, || random.u8());
    }
    let mut packet = carrying(random, report, &payload);
    if random.one_in(4) {
        damage(random, &mut packet);
    }
    packet
}

pub fn damage(random: &Random, packet: &mut Vec<u8>) {
    if packet.is_empty() {
        return;
    }
    let (some, last) = (random.index(packet.len()), packet.len() - 1);
    match random.below(6) {
        0 => packet[some] ^= 1 << random.below(8),
        1 => packet[0] = random.u8(),
        2 => packet[last] = random.pick(&[0, random.u8()]),
        3 => packet.extend(random.bytes(some)),
        4 => packet.truncate(some),
        _ => packet[1 + last / 2..].fill(0),
    }
}

/// A packet that mostly concerns a table's own segments, or the edges of what it takes.
pub fn packet_for(random: &Random, table: &Table) -> Vec<u8> {
    packet(random, &report_for(random, table))
}

/// The report of such a packet.
pub fn report_for(random: &Random, table: &Table) -> Report {
    let held = &table.segments[..table.count.min(128)];
    let near = if held.is_empty() { Segment::default() } else { random.pick(held) };
    let offset = match random.below(8) {
        0 => random.pick(&[0, 0x7FFF_FFFF, 0x8000_0000, 0xFFFF_FFFF]),
        1 => random.u32(),
        2 => random.u32() >> 1,
        3 => (near.offset as u32).wrapping_add(u32::from(near.duration)),
        _ => near.offset as u32,
    };
    let mut report = report(random, &table.codes);
    report.timestamp = table.origin.wrapping_add(offset);
    if !random.one_in(12) {
        report.payload_type = u32::from(table.payload_type);
    }
    if !random.one_in(12) {
        report.ssrc = table.ssrc;
    }
    if random.bool() {
        report.code = u32::from(near.code);
    }
    report
}
