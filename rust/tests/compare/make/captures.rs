//! Captures: frames of packets of every kind, one after another.

use super::blocks::redundant_for;
use super::packets::packet_for;
use crate::paper::table::{Table, receive};
use crate::random::Random;

pub fn framed(packet: &[u8]) -> Vec<u8> {
    let length = u16::try_from(packet.len()).unwrap();
    [&length.to_be_bytes(), packet].concat()
}

/// So many frames for a table, most of them of packets for what it holds by then; some of redundant
/// packets, of any bytes or of none.
pub fn frames(random: &Random, table: &Table, n: usize) -> Vec<Vec<u8>> {
    let mut table = table.clone();
    let packet = || match random.below(16) {
        0 => random.bytes(random.index(300)),
        1 => Vec::new(),
        2 => redundant_for(random, &table),
        _ => {
            let packet = packet_for(random, &table);
            let _ = receive(&mut table, &packet);
            packet
        }
    };
    std::iter::repeat_with(packet).take(n).map(|packet| framed(&packet)).collect()
}

/// A capture for a table, often without its last bytes.
pub fn capture(random: &Random, table: &Table) -> Vec<u8> {
    let n = random.pick(&[0, 1, 2, random.index(8), random.index(40)]);
    let mut capture = frames(random, table, n).concat();
    if random.bool() {
        let cut = random.pick(&[1, 2, random.index(20), random.index(capture.len() + 1)]);
        capture.truncate(capture.len().saturating_sub(cut));
    }
    if random.one_in(4) {
        capture.extend(random.pick(&[&[0][..], &[16], &[0, 0], &[0, 1], &[0xFF, 0xFF, 0x80]]));
    }
    capture
}
