//! "The receiving table", its two openings, and its tests.

use super::codes::{self, Codes};
use super::packet::{Header, header, report};
use std::collections::BTreeMap;

/// A segment. Its numbers have room for what a place of the library's table can say, and a segment
/// that one is made of.
#[derive(Clone, Copy, Debug, Default, PartialEq, Eq)]
pub struct Segment {
    pub offset: u64,
    pub code: u8,
    pub duration: u16,
    /// The smallest number heard, and the largest.
    pub volume: u8,
    pub quietest: u8,
    pub ended: bool,
    pub marked: bool,
}

#[derive(Clone, Debug, PartialEq, Eq)]
pub struct Table {
    pub payload_type: u8,
    /// 0: of the first opening, which has the event's type alone.
    pub both_types: u8,
    pub redundant_type: u8,
    pub ssrc: u32,
    pub origin: u32,
    pub codes: Codes,
    pub count: usize,
    pub segments: [Segment; 128],
}

/// What a refused opening leaves.
const ZEROS: Table = Table {
    payload_type: 0,
    both_types: 0,
    redundant_type: 0,
    ssrc: 0,
    origin: 0,
    codes: codes::EMPTY,
    count: 0,
    segments: [NONE; 128],
};

const NONE: Segment = Segment {
    offset: 0,
    code: 0,
    duration: 0,
    volume: 0,
    quietest: 0,
    ended: false,
    marked: false,
};

/// The empty table; under a refusal, one of zeros.
pub fn open(codes: Codes, payload_type: u32, ssrc: u32, origin: u32) -> (Table, Result<(), u8>) {
    if codes == codes::EMPTY || payload_type > 127 {
        return (ZEROS, Err(12));
    }
    let payload_type = payload_type as u8;
    (Table { payload_type, ssrc, origin, codes, ..ZEROS }, Ok(()))
}

/// The second opening, which takes both types.
pub fn open_redundant(
    codes: Codes,
    payload_type: u32,
    redundant_type: u32,
    ssrc: u32,
    origin: u32,
) -> (Table, Result<(), u8>) {
    if codes == codes::EMPTY
        || payload_type > 127
        || redundant_type > 127
        || payload_type == redundant_type
    {
        return (ZEROS, Err(12));
    }
    let (payload_type, redundant_type) = (payload_type as u8, redundant_type as u8);
    (Table { payload_type, both_types: 1, redundant_type, ssrc, origin, codes, ..ZEROS }, Ok(()))
}

/// Which of the eleven tests a table fails: the seven of 01 in its order, with the two of the
/// largest volume after the smallest's, and those of a table of the second opening. Of a table that
/// says it has more than 128 segments, all 128 places are looked at.
pub fn failed(table: &Table) -> [bool; 11] {
    let held = &table.segments[..table.count.min(128)];
    let pairs: Vec<_> = held.iter().map(|s| (s.offset, s.code)).collect();
    [
        table.count > 128,
        pairs.windows(2).any(|two| two[0] >= two[1]),
        held.iter().any(|s| s.offset >= 1 << 31),
        held.iter().any(|s| !table.codes.contains(s.code.into())),
        held.iter().any(|s| s.duration == 0),
        held.iter().any(|s| s.volume > 63),
        held.iter().any(|s| s.quietest < s.volume),
        held.iter().any(|s| s.quietest > 63),
        table.payload_type > 127,
        table.both_types != 0 && table.redundant_type > 127,
        table.both_types != 0 && table.redundant_type == table.payload_type,
    ]
}

pub fn is_valid(table: &Table) -> bool {
    !failed(table).contains(&true)
}

/// What a packet says up to its payload, if it is for the table. Refusals 16, and 1 to 6.
fn addressed<'a>(table: &Table, packet: &'a [u8]) -> Result<Header<'a>, u8> {
    if !is_valid(table) {
        return Err(16);
    }
    let header = header(packet)?;
    if header.payload_type != u32::from(table.payload_type) {
        return Err(5);
    }
    if header.ssrc != table.ssrc {
        return Err(6);
    }
    Ok(header)
}

/// What the payload says to a table. Refusals 7 to 10, and 17.
fn said(table: &Table, header: &Header) -> Result<Segment, u8> {
    let report = report(&table.codes, header)?;
    let offset = (i64::from(report.timestamp) - i64::from(table.origin)).rem_euclid(1 << 32) as u64;
    if offset >= 1 << 31 {
        return Err(10);
    }
    Ok(Segment {
        offset,
        code: report.code as u8,
        duration: report.duration as u16,
        volume: report.volume as u8,
        quietest: report.volume as u8,
        ended: report.ended,
        marked: report.marker,
    })
}

/// How many entries are looked at for a pair: a halving search over the range 0 to n of the entries
/// held, which keeps what is right of the middle if that is smaller, else what is left.
fn probes(held: &[Segment], pair: (u64, u8)) -> usize {
    let (mut range, mut probes) = (0..held.len(), 0);
    while !range.is_empty() {
        let middle = (range.start + range.end) / 2;
        let is_smaller = (held[middle].offset, held[middle].code) < pair;
        range = if is_smaller { middle + 1..range.end } else { range.start..middle };
        probes += 1;
    }
    probes
}

/// Whether the segment of what is taken is new, or the refusal; with the number of entries looked
/// at.
pub type Answer = Result<(bool, usize), (u8, usize)>;

/// Takes the packet into the table.
pub fn receive(table: &mut Table, packet: &[u8]) -> Answer {
    let header = addressed(table, packet).map_err(|before_search| (before_search, 0))?;
    take(table, &header)
}

/// Takes the report of a packet, or of a block, that is for the table.
pub fn take(table: &mut Table, header: &Header) -> Answer {
    let heard = said(table, header).map_err(|before_search| (before_search, 0))?;
    let pair = (heard.offset, heard.code);
    let held = &table.segments[..table.count];
    let probes = probes(held, pair);
    let mut held: BTreeMap<_, _> = held.iter().map(|s| ((s.offset, s.code), *s)).collect();
    let is_new = !held.contains_key(&pair);
    if is_new && held.len() == 128 {
        return Err((11, probes));
    }
    held.entry(pair).and_modify(|s| *s = both(s, &heard)).or_insert(heard);
    table.count = held.len();
    for (place, segment) in table.segments.iter_mut().zip(held.into_values()) {
        *place = segment;
    }
    Ok((is_new, probes))
}

/// What two reports of one pair of offset and code say together.
pub fn both(one: &Segment, other: &Segment) -> Segment {
    Segment {
        duration: one.duration.max(other.duration),
        volume: one.volume.min(other.volume),
        quietest: one.quietest.max(other.quietest),
        ended: one.ended || other.ended,
        marked: one.marked || other.marked,
        ..*one
    }
}
