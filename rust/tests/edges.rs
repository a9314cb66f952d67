//! The rows of document 01, "Both sides of each edge", those of packed packets, of segments of any
//! size, of whole captures, of redundant packets, of sets of codes and of the loudest and quietest,
//! and the words of the refusals.

use std::collections::HashSet;
use twimbor::sys::{self, EventResult};
use twimbor::{Block, Blocks, Captured, Codes, Entry, Event, OlderReport, Plan, Refusal, Report};
use twimbor::{Segment, Table, Taken, UnknownRefusal};

const KEYS: Codes = Codes::KEYS;

const P7: Plan = Plan {
    payload_type: 101,
    ssrc: 0x1122_3344,
    sequence: 65_535,
    start: 0xFFFF_FFF0,
    code: 5,
    volume: 10,
    length: 400,
    period: 400,
    segment_size: 65_535,
};

/// Without the feature `alloc` a table has no `events`; its list into records says the same.
#[cfg(not(feature = "alloc"))]
trait Listing {
    fn events(&self) -> Result<Vec<Event>, Refusal>;
}

#[cfg(not(feature = "alloc"))]
impl Listing for Table {
    fn events(&self) -> Result<Vec<Event>, Refusal> {
        let mut list = vec![Event::default(); twimbor::PLACES];
        let events = self.list_into(&mut list)?;
        list.truncate(events);
        Ok(list)
    }
}

/// The events of a table that holds these two segments.
fn events(first: Segment, second: Segment) -> Vec<Event> {
    Table::from_segments(KEYS, 101, 1, 0, &[first, second]).unwrap().events().unwrap()
}

#[test]
fn p1_to_p6_count_reports() {
    for (length, period, reports) in [
        (1, 65_535, 3),
        (400, 400, 3),
        (401, 400, 4),
        (65_535, 65_535, 3),
        (65_536, 65_535, 6),
        (70_000, 2_400, 34),
    ] {
        assert_eq!(Plan { length, period, ..P7 }.report_count(KEYS), Ok(reports));
    }
}

#[test]
fn p7_and_p8_give_these_bytes() {
    let packets: Vec<_> =
        P7.packets(KEYS).unwrap().map(|packet| format!("{packet:02X?}")).collect();
    assert_eq!(
        packets,
        [
            "[80, E5, FF, FF, FF, FF, FF, F0, 11, 22, 33, 44, 05, 0A, 01, 90]",
            "[80, 65, 00, 00, FF, FF, FF, F0, 11, 22, 33, 44, 05, 8A, 01, 90]",
            "[80, 65, 00, 01, FF, FF, FF, F0, 11, 22, 33, 44, 05, 8A, 01, 90]",
        ]
    );
}

#[test]
fn p9_to_p12_list_one_event_or_two() {
    let zeros = Segment { code: 5, ..Segment::default() };
    let first = Segment { duration: 65_535, marked: true, ..zeros };
    let second = Segment { offset: 65_535, duration: 1, ended: true, ..zeros };
    let event = Event { code: 5, length: 65_536, began: true, ended: true, ..Event::default() };
    assert_eq!(events(first, second), [event]);

    let one = Event { length: 65_535, ..event };
    let two = Event { start: 65_535, length: 1, began: false, ..event };
    assert_eq!(events(Segment { ended: true, ..first }, second), [one, two]);
    let shorter = Segment { duration: 65_534, ..first };
    assert_eq!(events(shorter, second), [Event { length: 65_534, ended: false, ..event }, two]);
    let marked = Segment { marked: true, ..second };
    let begun = Event { began: true, ..two };
    assert_eq!(events(first, marked), [Event { ended: false, ..one }, begun]);
}

#[test]
fn segments_are_continued_at_any_duration() {
    for duration in [1, 2, 400, 15_983, 65_534, 65_535] {
        let zeros = Segment { code: 5, ..Segment::default() };
        let first = Segment { offset: 1_000, duration, marked: true, ..zeros };
        let end = first.offset + u32::from(duration);
        let second = Segment { offset: end, duration: 7, ended: true, ..zeros };
        let began = Event { code: 5, start: 1_000, began: true, ..Event::default() };
        let one = Event { length: end - 1_000, ..began };
        let two = Event { start: end, length: 7, began: false, ended: true, ..one };
        let joined = Event { length: one.length + 7, ended: true, ..one };
        assert_eq!(events(first, second), [joined]);

        let ended = Segment { ended: true, ..first };
        assert_eq!(events(ended, second), [Event { ended: true, ..one }, two]);
        let marked = Segment { marked: true, ..second };
        assert_eq!(events(first, marked), [one, Event { began: true, ..two }]);
        let other = Segment { code: 6, ..second };
        assert_eq!(events(first, other), [one, Event { code: 6, ..two }]);
        let later = Segment { offset: end + 1, ..second };
        assert_eq!(events(first, later), [one, Event { start: end + 1, ..two }]);
        if duration > 1 {
            let earlier = Segment { offset: end - 1, ..second };
            assert_eq!(events(first, earlier), [one, Event { start: end - 1, ..two }]);
        }
    }
}

#[test]
fn segment_sizes_end_at_1_and_65535() {
    for segment_size in [0, 1, 65_535, 65_536, u32::MAX] {
        let plan = Plan { length: 1, segment_size, ..P7 };
        let is_size = (1..=65_535).contains(&segment_size);
        let (count, written) = (plan.report_count(KEYS), plan.write_report(KEYS, 1, &mut [0; 16]));
        assert_eq!(count, if is_size { Ok(3) } else { Err(Refusal::OutOfRange) });
        assert_eq!(written, if is_size { Ok(()) } else { Err(Refusal::OutOfRange) });
    }
}

#[test]
fn lengths_end_at_16_sizes() {
    for segment_size in [1, 2, 399, 400, 15_983, 65_534, 65_535] {
        let longest = Plan { length: 16 * segment_size, period: 65_535, segment_size, ..P7 };
        assert_eq!(longest.report_count(KEYS), Ok(3 * 16));
        assert_eq!(longest.write_report(KEYS, 3 * 16, &mut [0; 16]), Ok(()));
        for length in [0, longest.length + 1] {
            let outside = Plan { length, ..longest };
            assert_eq!(outside.report_count(KEYS), Err(Refusal::OutOfRange));
            assert_eq!(outside.write_report(KEYS, 1, &mut [0; 16]), Err(Refusal::OutOfRange));
        }
    }
}

/// A plan's reports, as start of the segment, counted from that of the event, duration and E.
fn reports(plan: &Plan) -> Vec<(u32, u32, bool)> {
    let reports = plan.packets(KEYS).unwrap().map(|packet| Report::read(KEYS, &packet).unwrap());
    reports.map(|r| (r.timestamp.wrapping_sub(plan.start), r.duration, r.ended)).collect()
}

#[test]
fn segments_of_one_unit_have_three_reports_each() {
    for length in 1..=16 {
        let plan = Plan { length, segment_size: 1, ..P7 };
        let expected = (0..length).flat_map(|unit| {
            let is_last = unit == length - 1;
            [(unit, 1, false), (unit, 1, is_last), (unit, 1, is_last)]
        });
        assert!(reports(&plan).into_iter().eq(expected));
    }
}

#[test]
fn a_length_in_whole_sizes_leaves_no_empty_segment() {
    let whole = Plan { length: 800, segment_size: 400, ..P7 };
    let first = [(0, 400, false); 3];
    let second = [(400, 400, false), (400, 400, true), (400, 400, true)];
    assert_eq!(reports(&whole), [first, second].concat());
    let longer = Plan { length: 801, ..whole };
    let rest = [(800, 1, false), (800, 1, true), (800, 1, true)];
    assert_eq!(reports(&longer), [first, [(400, 400, false); 3], rest].concat());
}

#[test]
fn offsets_end_at_two_to_the_31() {
    let origin = 0xFFFF_FFF0;
    let mut table = Table::open(KEYS, P7.payload_type, P7.ssrc, origin).unwrap();
    let mut packet = [0; 16];
    let last = Plan { start: origin.wrapping_add((1 << 31) - 1), ..P7 };
    last.write_report(KEYS, 1, &mut packet).unwrap();
    assert_eq!(table.receive(&packet), Ok(Taken::New));
    let after = Plan { start: origin.wrapping_add(1 << 31), ..P7 };
    after.write_report(KEYS, 1, &mut packet).unwrap();
    assert_eq!(table.receive(&packet), Err(Refusal::OffsetTooLarge));
}

#[test]
fn a_full_table_takes_what_it_knows() {
    let mut table = Table::open(KEYS, P7.payload_type, P7.ssrc, 0).unwrap();
    let mut packet = [0; 16];
    for start in 0..129 {
        Plan { start, ..P7 }.write_report(KEYS, 1, &mut packet).unwrap();
        let expected = if start < 128 { Ok(Taken::New) } else { Err(Refusal::TableFull) };
        assert_eq!(table.receive(&packet), expected);
    }
    Plan { start: 77, ..P7 }.write_report(KEYS, 2, &mut packet).unwrap();
    assert_eq!(table.receive(&packet), Ok(Taken::Known));
    assert_eq!(table.segments().len(), 128);
}

#[test]
fn packed_packets_hold_two_or_more_whole_reports() {
    let mut table = Table::open(KEYS, P7.payload_type, P7.ssrc, P7.start).unwrap();
    let report = P7.packets(KEYS).unwrap().next().unwrap();
    for bytes in 0..=13 {
        let payload = report[12..].iter().cycle().take(bytes);
        let packet: Vec<u8> = report[..12].iter().chain(payload).copied().collect();
        let expected = match bytes {
            4 => Ok(()),
            8 | 12 => Err(17),
            _ => Err(7),
        };
        assert_eq!(Report::read(KEYS, &packet).map(|_| ()).map_err(Refusal::number), expected);
        assert_eq!(table.receive(&packet).map(|_| ()).map_err(Refusal::number), expected);
    }
}

/// The three reports of P7, each in a frame.
fn p7_frames() -> [Vec<u8>; 3] {
    let frames: Vec<_> = P7.packets(KEYS).unwrap().map(|packet| framed(&packet)).collect();
    frames.try_into().unwrap()
}

fn framed(packet: &[u8]) -> Vec<u8> {
    [&(packet.len() as u16).to_be_bytes(), packet].concat()
}

/// What P7's table says of a capture: the bytes used, and how many are taken, refused, packed.
fn captured(capture: &[u8]) -> (usize, usize, usize, usize) {
    let mut table = Table::open(KEYS, P7.payload_type, P7.ssrc, P7.start).unwrap();
    let Captured { used, taken, refused, packed } = table.receive_capture(capture).unwrap();
    assert_eq!(table.segments().len(), taken.min(1));
    (used, taken, refused, packed)
}

#[test]
fn a_capture_is_used_up_to_its_last_whole_frame() {
    let [one, two, three] = p7_frames();
    let all = [one, two, three].concat();
    assert_eq!(captured(&[]), (0, 0, 0, 0));
    for bytes in 0..=all.len() {
        let whole = bytes / 18;
        assert_eq!(captured(&all[..bytes]), (18 * whole, whole, 0, 0));
    }
}

#[test]
fn a_length_of_0_is_a_refused_packet_and_one_byte_is_none() {
    let [one, two, _] = p7_frames();
    assert_eq!(captured(&[0]), (0, 0, 0, 0));
    assert_eq!(captured(&[16]), (0, 0, 0, 0));
    assert_eq!(captured(&[0, 0]), (2, 0, 1, 0));
    assert_eq!(captured(&[0, 0, 0]), (2, 0, 1, 0));
    assert_eq!(captured(&[0, 1]), (0, 0, 0, 0));
    assert_eq!(captured(&[&one[..], &[0, 0], &two, &[0, 0]].concat()), (40, 2, 2, 0));
}

#[test]
fn refused_packets_stop_no_later_one() {
    let [one, two, _] = p7_frames();
    let packed = framed(&[&one[2..], &one[14..]].concat());
    let not_one_report = framed(&one[2..17]);
    let other_ssrc = framed(&[&one[2..13], &[0x45], &one[14..]].concat());
    assert_eq!(captured(&[&packed[..], &one].concat()), (40, 1, 1, 1));
    let capture = [&other_ssrc[..], &one, &not_one_report, &packed, &two, &packed];
    assert_eq!(captured(&capture.concat()), (18 + 18 + 17 + 22 + 18 + 22, 2, 4, 2));
}

#[test]
fn what_a_full_table_refuses_is_counted() {
    let mut table = Table::open(KEYS, P7.payload_type, P7.ssrc, 0).unwrap();
    let first = |start| framed(&Plan { start, ..P7 }.packets(KEYS).unwrap().next().unwrap());
    let capture: Vec<u8> = (0..130).chain([77]).flat_map(first).collect();
    let captured = Captured { used: 131 * 18, taken: 129, refused: 2, packed: 0 };
    assert_eq!(table.receive_capture(&capture), Ok(captured));
    assert_eq!(table.segments().len(), 128);
}

#[test]
fn a_table_that_fails_the_tests_receives_no_capture() {
    let [one, ..] = p7_frames();
    let opened = Table::open(KEYS, P7.payload_type, P7.ssrc, P7.start).unwrap();
    let mut too_many = opened.clone();
    too_many.head.count = 129;
    let mut no_duration = opened.clone();
    no_duration.head.count = 1;
    for failing in [too_many, no_duration] {
        for capture in [&one[..], &one[..17], &[]] {
            let mut table = failing.clone();
            assert_eq!(table.receive_capture(capture), Err(Refusal::InvalidTable));
            assert_eq!(table, failing);
        }
    }
}

#[test]
fn a_capture_goes_on_from_the_bytes_used() {
    let all = [&p7_frames().concat()[..], &[0, 0]].concat();
    for cut in 0..=all.len() {
        let mut table = Table::open(KEYS, P7.payload_type, P7.ssrc, P7.start).unwrap();
        let before = table.receive_capture(&all[..cut]).unwrap();
        let after = table.receive_capture(&all[before.used..]).unwrap();
        assert_eq!(before.used + after.used, all.len());
        assert_eq!((before.taken + after.taken, before.refused + after.refused), (3, 1));
        assert_eq!(table.events().unwrap(), [Event { ended: true, ..press(10, 10) }]);
    }
}

/// A packet of the redundant type 96, 48 units after P7's start, with this payload.
fn redundant(payload: &[u8]) -> Vec<u8> {
    let header = [0x80, 96, 0, 1, 0, 0, 0, 0x20, 0x11, 0x22, 0x33, 0x44];
    [&header, payload].concat()
}

/// P7's table, opened for both types.
fn p7_table() -> Table {
    Table::open_redundant(KEYS, P7.payload_type, 96, P7.ssrc, P7.start).unwrap()
}

/// The lengths of a packet's blocks, or the refusal's number; the receiver agrees about that.
fn lengths(packet: &[u8]) -> Result<Vec<usize>, u8> {
    let blocks = Blocks::of(packet).map_err(Refusal::number);
    let received = p7_table().receive_redundant(packet, &mut [Entry::default(); 4]);
    assert_eq!(received.err().map(Refusal::number), blocks.as_ref().err().copied());
    blocks.map(|blocks| blocks.map(|block| block.data.len()).collect())
}

#[test]
fn block_headers_end_with_one_byte_inside_the_payload() {
    // An older block of no bytes, and the last header.
    let (older, last) = ([0xE5, 0, 0, 0], [0x65]);
    let two = [older, older].concat();
    for (payload, blocks) in
        [(&last[..], 1), (&[&older[..], &last].concat(), 2), (&[&two[..], &last].concat(), 3)]
    {
        assert_eq!(lengths(&redundant(payload)), Ok(vec![0; blocks]));
        for cut in 0..payload.len() {
            assert_eq!(lengths(&redundant(&payload[..cut])), Err(18));
        }
    }
    // Padding is not payload: of one byte, it takes the last header away.
    let padded = |payload: &[u8]| [&[0xA0], &redundant(payload)[1..]].concat();
    assert_eq!(lengths(&padded(&[0xE5, 0, 0, 0, 1])), Err(18));
    assert_eq!(lengths(&padded(&[0xE5, 0, 0, 0, 0x65, 1])), Ok(vec![0, 0]));
}

#[test]
fn block_lengths_come_to_the_data_at_most() {
    let one = [0xE5, 0, 0, 4, 0x65];
    let two = [0xE5, 0, 0, 4, 0xE5, 0, 0, 3, 0x65];
    let with = |headers: &[u8], data: usize| redundant(&[headers, &vec![1; data]].concat());
    assert_eq!(lengths(&with(&one, 3)), Err(19));
    assert_eq!(lengths(&with(&one, 4)), Ok(vec![4, 0]));
    assert_eq!(lengths(&with(&one, 5)), Ok(vec![4, 1]));
    assert_eq!(lengths(&with(&two, 6)), Err(19));
    assert_eq!(lengths(&with(&two, 7)), Ok(vec![4, 3, 0]));
    // Padding is not data.
    let padded = |data: usize| [&[0xA0], &with(&one, data + 1)[1..]].concat();
    assert_eq!(lengths(&padded(3)), Err(19));
    assert_eq!(lengths(&padded(4)), Ok(vec![4, 0]));
    // 10 bits of length.
    assert_eq!(lengths(&with(&[0xE5, 0, 3, 0xFF, 0x65], 1_022)), Err(19));
    assert_eq!(lengths(&with(&[0xE5, 0, 3, 0xFF, 0x65], 1_023)), Ok(vec![1_023, 0]));
    assert_eq!(lengths(&with(&[0xE5, 0, 4, 0x00, 0x65], 1_023)), Ok(vec![0, 1_023]));
}

#[test]
fn offsets_of_blocks_end_at_16383() {
    let data = [5, 10, 1, 144, 5, 10, 1, 144];
    for ([high, low], offset) in
        [([0, 0], 0), ([0, 4], 1), ([0xFF, 0xF8], 16_382), ([0xFF, 0xFC], 16_383)]
    {
        let packet = redundant(&[&[0xE5, high, low, 4, 0x65][..], &data].concat());
        let block = Blocks::of(&packet).unwrap().next().unwrap();
        let older = Block { payload_type: 101, offset, primary: false, data: &data[..4] };
        assert_eq!(block, older);
        assert_eq!(block.timestamp(0x20), 0x20_u32.wrapping_sub(offset.into()));
        // On both sides of the origin.
        for (before, answer) in [(0, Ok(Taken::New)), (1, Err(Refusal::OffsetTooLarge))] {
            let origin = block.timestamp(0x20).wrapping_add(before);
            let mut table = Table::open_redundant(KEYS, 101, 96, P7.ssrc, origin).unwrap();
            let mut entries = [Entry::default(); 2];
            assert_eq!(table.receive_redundant(&packet, &mut entries), Ok(2));
            assert_eq!(entries[0].answer(), answer);
        }
    }
}

#[test]
fn a_packet_needs_an_entry_for_each_block_of_the_events_type() {
    let plain = P7.packets(KEYS).unwrap().next().unwrap();
    let three = [0xE5, 0, 0, 4, 0xE0, 0, 0, 0, 0x65, 5, 10, 1, 144, 6, 10, 1, 144];
    let other_types = [0xE0, 0, 0, 1, 0x07, 1, 2, 3];
    let stays = Entry::from(0xABCD);
    for (packet, blocks) in
        [(plain.to_vec(), 1), (redundant(&three), 2), (redundant(&other_types), 0)]
    {
        let mut entries = [stays; 4];
        if blocks > 0 {
            let (mut table, few) = (p7_table(), &mut entries[..blocks - 1]);
            assert_eq!(table.receive_redundant(&packet, few), Err(Refusal::ListTooSmall));
            assert_eq!((table, entries), (p7_table(), [stays; 4]));
        }
        let mut table = p7_table();
        assert_eq!(table.receive_redundant(&packet, &mut entries[..blocks]), Ok(blocks));
        assert_eq!(table.segments().len(), blocks);
        let written = entries.iter().take_while(|&&entry| entry != stays);
        assert!(written.map(Entry::answer).eq(vec![Ok(Taken::New); blocks]));
    }
    // All blocks that 1,500 bytes can have.
    let payload = [&[0xE5, 0, 0, 0].repeat(371)[..], &[0x65, 1, 2, 3]].concat();
    let packet = redundant(&payload);
    assert_eq!(packet.len(), 1_500);
    let mut entries = [stays; 372];
    assert_eq!(p7_table().receive_redundant(&packet, &mut entries), Ok(372));
}

#[test]
fn a_redundant_packet_is_refused_in_this_order() {
    let none = redundant(&[]);
    let too_long = redundant(&[0xE5, 0, 0, 4, 0x65]);
    let two_sevens = redundant(&[0xE5, 0, 0, 0, 0x65]);
    let set = |packet: &[u8], place: usize, byte| {
        let mut packet = packet.to_vec();
        packet[place] = byte;
        packet
    };
    for (packet, room, refusal) in [
        (set(&none, 1, 95), 0, Err(5)),
        (set(&none, 11, 0x45), 0, Err(6)),
        (none, 0, Err(18)),
        (too_long, 0, Err(19)),
        (two_sevens.clone(), 1, Err(15)),
        (two_sevens.clone(), 2, Ok(2)),
    ] {
        let mut table = p7_table();
        let received = table.receive_redundant(&packet, &mut [Entry::default(); 2][..room]);
        assert_eq!(received.map_err(Refusal::number), refusal);
        assert_eq!(table, p7_table());
        // 01's receiver knows the event's type alone.
        assert_eq!(table.receive(&packet), Err(Refusal::OtherPayloadType));
        // A table of the first opening has it alone, whatever else it says.
        let mut first = Table::open(KEYS, P7.payload_type, P7.ssrc, P7.start).unwrap();
        for redundant_type in [0, 96, 101, 200] {
            first.head.redundant_type = redundant_type;
            let received = first.receive_redundant(&packet, &mut [Entry::default(); 2]);
            assert_eq!(received, Err(Refusal::OtherPayloadType));
        }
    }
}

#[test]
fn a_refused_block_stops_none_and_only_the_primary_is_marked() {
    let mut table = p7_table();
    let headers = [0xE5, 0, 0xC0, 4, 0xE5, 0, 0, 3, 0xE5, 0, 0, 8, 0xE5, 0, 0, 4, 0xE5, 0, 0, 4];
    let data = [5, 10, 1, 144, 1, 2, 3, 1, 0, 0, 1, 1, 0, 0, 1, 16, 0, 0, 1, 5, 0, 0, 0];
    let mut packet = redundant(&[&headers[..], &[0x65], &data, &[6, 10, 0, 9]].concat());
    packet[1] |= 0x80;
    let mut entries = [Entry::default(); 6];
    assert_eq!(table.receive_redundant(&packet, &mut entries), Ok(6));
    let (new, second) = (0x100, 0x1_0100); // the second one is looked for among one
    assert_eq!(entries.map(|entry| entry.number()), [new, 7, 17, 8, 9, second]);
    let first = Segment { code: 5, volume: 10, quietest: 10, duration: 400, ..Segment::default() };
    let last = Segment { offset: 48, code: 6, duration: 9, marked: true, ..first };
    assert!(table.segments().eq([first, last]));

    // With a primary of another type nothing is marked.
    packet[12 + headers.len()] = 7;
    let mut table = p7_table();
    assert_eq!(table.receive_redundant(&packet, &mut entries), Ok(5));
    assert!(table.segments().eq([first]));
}

#[test]
fn a_full_table_refuses_a_block_and_takes_a_later_one() {
    let segment = |offset| Segment { offset, code: 5, duration: 1, ..Segment::default() };
    let held: Vec<_> = (0..128).map(segment).collect();
    let mut table = Table::from_segments(KEYS, 101, P7.ssrc, P7.start, &held).unwrap();
    (table.head.both_types, table.head.redundant_type) = (1, 96);
    let packet = redundant(&[0xE5, 0, 0xC0, 4, 0x65, 6, 10, 0, 9, 5, 10, 0, 9]);
    let mut entries = [Entry::default(); 2];
    assert_eq!(table.receive_redundant(&packet, &mut entries), Ok(2));
    assert_eq!(entries.map(|entry| entry.answer()), [Err(Refusal::TableFull), Ok(Taken::Known)]);
    assert_eq!(entries.map(|entry| entry.probes()), [8, 7]);
    let quieter = Segment { duration: 9, quietest: 10, ..segment(48) };
    assert_eq!(table.segments().nth(48), Some(quieter));
}

/// P7's report, 48 units later, and two older ones.
const REPORT: Report = Report {
    marker: true,
    payload_type: 101,
    sequence: 7,
    timestamp: 0x20,
    ssrc: 0x1122_3344,
    code: 5,
    ended: false,
    volume: 10,
    duration: 400,
};
const OLDER: [OlderReport; 2] = [
    OlderReport { timestamp: 0xFFFF_C021, code: 15, ended: true, volume: 63, duration: 65_535 },
    OlderReport { timestamp: 0xFFFF_FFF0, code: 0, ended: false, volume: 0, duration: 1 },
];

#[test]
fn redundant_packets_have_these_bytes() {
    let header = "80 E0 00 07 00 00 00 20 11 22 33 44 ";
    for (older, rest) in [
        (&OLDER[..0], "65 05 0A 01 90"),
        (&OLDER[..1], "E5 FF FC 04 65 0F BF FF FF 05 0A 01 90"),
        (&OLDER[1..], "E5 00 C0 04 65 00 00 00 01 05 0A 01 90"),
        (&OLDER[..], "E5 FF FC 04 E5 00 C0 04 65 0F BF FF FF 00 00 00 01 05 0A 01 90"),
    ] {
        let mut output = [0xEE; 40];
        let bytes = 17 + 8 * older.len();
        assert_eq!(REPORT.write_redundant(KEYS, 96, older, &mut output), Ok(bytes));
        let hex: Vec<_> = output[..bytes].iter().map(|byte| format!("{byte:02X}")).collect();
        assert_eq!(hex.join(" "), format!("{header}{rest}"));
        assert!(output[bytes..].iter().all(|&byte| byte == 0xEE));
        // 14 with one byte fewer than that.
        let mut output = [0xEE; 40];
        let written = REPORT.write_redundant(KEYS, 96, older, &mut output[..bytes - 1]);
        assert_eq!((written, output), (Err(Refusal::OutputTooSmall), [0xEE; 40]));
    }
}

#[test]
fn redundant_packets_are_written_within_these_ranges() {
    let write = |report: Report, redundant_type: u32, older: &[OlderReport]| {
        let written = report.write_redundant(KEYS, redundant_type, older, &mut [0; 33]);
        written.map_err(Refusal::number)
    };
    assert_eq!(write(REPORT, 127, &OLDER), Ok(33));
    for redundant_type in [101, 128, 101 + 256, u32::MAX] {
        assert_eq!(write(REPORT, redundant_type, &OLDER), Err(12));
    }
    assert_eq!(REPORT.write_redundant(KEYS, -1, &OLDER, &mut [0; 33]), Err(Refusal::OutOfRange));
    let third = [OLDER[0], OLDER[1], OLDER[1]];
    assert_eq!(write(REPORT, 96, &third), Err(12));
    let [first, second] = OLDER;
    for timestamp in [0xFFFF_C020, 0x21, 0x8000_0020] {
        assert_eq!(write(REPORT, 96, &[OlderReport { timestamp, ..first }]), Err(12));
        assert_eq!(write(REPORT, 96, &[first, OlderReport { timestamp, ..first }]), Err(12));
    }
    for wrong in [
        OlderReport { code: 16, ..second },
        OlderReport { volume: 64, ..second },
        OlderReport { duration: 0, ..second },
        OlderReport { duration: 65_536, ..second },
    ] {
        assert_eq!(write(REPORT, 96, &[wrong]), Err(12));
        assert_eq!(write(REPORT, 96, &[first, wrong]), Err(12));
        let OlderReport { code, volume, duration, .. } = wrong;
        assert_eq!(write(Report { code, volume, duration, ..REPORT }, 96, &[]), Err(12));
        // 12 comes before 14.
        assert_eq!(REPORT.write_redundant(KEYS, 96, &[wrong], &mut []), Err(Refusal::OutOfRange));
    }
}

#[test]
fn a_table_for_both_types_has_two() {
    for (payload_type, redundant_type, is_opened) in [
        (0, 127, true),
        (127, 0, true),
        (127, 128, false),
        (128, 127, false),
        (101, 101, false),
        (101, 101 + 256, false),
    ] {
        let opened = Table::open_redundant(KEYS, payload_type, redundant_type, 7, 0);
        assert_eq!(opened.as_ref().err(), (!is_opened).then_some(&Refusal::OutOfRange));
        assert!(
            opened.is_ok_and(|table| table.is_valid() && table.head.both_types == 1) == is_opened
        );
    }
    for (redundant_type, is_valid) in [(0, true), (127, true), (128, false), (101, false)] {
        for both_types in [0, 1, 2, 255] {
            let mut table = p7_table();
            (table.head.both_types, table.head.redundant_type) = (both_types, redundant_type);
            assert_eq!(table.is_valid(), is_valid || both_types == 0);
            let received = table.receive_redundant(&[], &mut []).map_err(Refusal::number);
            assert_eq!(received, Err(if table.is_valid() { 1 } else { 16 }));
        }
    }
}

/// RFC 4733's Figure 5: tones are the primary, and events one redundant layer. The data follow the
/// headers, displaced by one byte.
#[test]
fn figure_5_has_an_event_before_a_tone() {
    let packet = [
        0x80, 102, 0, 18, 0, 0, 0x32, 0x00, 0, 0x52, 0x34, 0xA8, // timestamp 12,800
        0xE4, 0x19, 0x00, 0x04, 0x65, // type 100, offset 1,600, length 4; type 101
        0x01, 0x94, 0x06, 0xE0, // key 1, E, volume 20, duration 1,760
        0x00, 0x14, 0x00, 0xA0, 0x02, 0xB9, 0x04, 0xB9, // 160 units of 697 and 1,209 Hz
    ];
    let event = Block { payload_type: 100, offset: 1_600, primary: false, data: &packet[17..21] };
    let tone = Block { payload_type: 101, offset: 0, primary: true, data: &packet[21..29] };
    assert!(Blocks::of(&packet).unwrap().eq([event, tone]));
    let mut table = Table::open_redundant(KEYS, 100, 102, 0x5234A8, 0).unwrap();
    let mut entries = [Entry::default()];
    assert_eq!(table.receive_redundant(&packet, &mut entries), Ok(1));
    assert_eq!(entries[0].answer(), Ok(Taken::New));
    let (code, start, length) = (1, 11_200, 1_760);
    let one = Event { code, start, length, began: false, ended: true, ..press(20, 20) };
    assert_eq!(table.events().unwrap(), [one]);

    // For a table whose events are of the tones' type, its eight bytes are two reports.
    let mut table = Table::open_redundant(KEYS, 101, 102, 0x5234A8, 0).unwrap();
    assert_eq!(table.receive_redundant(&packet, &mut entries), Ok(1));
    assert_eq!(entries[0].answer(), Err(Refusal::Packed));
}

#[test]
fn volume_ends_at_63() {
    let report = Report { volume: 63, duration: 1, ..Report::default() };
    assert_eq!(report.write(KEYS, &mut [0; 16]), Ok(()));
    let too_large = Report { volume: 64, ..report };
    assert_eq!(too_large.write(KEYS, &mut [0; 16]), Err(Refusal::OutOfRange));
}

/// What is listed of P7 if its first report is heard, with these volumes.
fn press(volume: u8, quietest: u8) -> Event {
    let heard = Event { volume, quietest, ..Event::default() };
    Event { code: 5, length: 400, began: true, ..heard }
}

/// P7's first report, so much later and with another volume.
fn first_report(later: u32, volume: u8) -> Vec<u8> {
    let plan = Plan { start: P7.start.wrapping_add(later), volume: volume.into(), ..P7 };
    plan.packets(KEYS).unwrap().next().unwrap().to_vec()
}

/// The reports of P7's segment with these volumes, by each receiver; as blocks they are not marked.
#[test]
fn a_segment_keeps_the_loudest_and_the_quietest() {
    for (volumes, volume, quietest) in [
        (&[0][..], 0, 0),
        (&[10], 10, 10),
        (&[63], 63, 63),
        (&[10, 10, 10], 10, 10),
        (&[10, 9], 9, 10),
        (&[10, 11], 10, 11),
        (&[63, 0], 0, 63),
        (&[0, 63], 0, 63),
        (&[3, 20, 41], 3, 41),
        (&[3, 41, 20], 3, 41),
        (&[20, 3, 41], 3, 41),
        (&[20, 41, 3], 3, 41),
        (&[41, 3, 20], 3, 41),
        (&[41, 20, 3], 3, 41),
        (&[20, 3, 41, 20], 3, 41),
    ] {
        let packets: Vec<_> = volumes.iter().map(|&volume| first_report(0, volume)).collect();
        let headers = [0xE5, 0, 0xC0, 4].repeat(volumes.len());
        let data = volumes.iter().flat_map(|&volume| [5, volume, 1, 144]).collect::<Vec<_>>();
        let blocks = redundant(&[&headers[..], &[7], &data].concat());
        let mut tables = [(); 4].map(|()| p7_table());
        let mut entries = [Entry::default(); 4];
        for packet in &packets {
            assert!(tables[0].receive(packet).is_ok());
            assert_eq!(tables[1].receive_redundant(packet, &mut entries), Ok(1));
        }
        let frames: Vec<_> = packets.iter().map(|packet| framed(packet)).collect();
        assert_eq!(tables[2].receive_capture(&frames.concat()).unwrap().taken, volumes.len());
        assert_eq!(tables[3].receive_redundant(&blocks, &mut entries), Ok(volumes.len()));
        for (table, marked) in tables.iter().zip([true, true, true, false]) {
            let heard = Segment { volume, quietest, marked, ..Segment::default() };
            assert!(table.segments().eq([Segment { code: 5, duration: 400, ..heard }]));
            let event = Event { began: marked, ..press(volume, quietest) };
            assert_eq!(table.events(), Ok(vec![event]), "{volumes:?}");
            assert_eq!(table.event_at(1), Ok(event));
        }
    }
}

#[test]
fn a_new_segment_leaves_its_neighbours_their_volumes() {
    let mut table = p7_table();
    for (later, volume) in
        [(0, 5), (0, 50), (2_000, 9), (2_000, 7), (1_000, 30), (1_000, 20), (1_000, 40)]
    {
        assert!(table.receive(&first_report(later, volume)).is_ok());
    }
    let marked = Segment { code: 5, duration: 400, marked: true, ..Segment::default() };
    let heard = [(0, 5, 50), (1_000, 20, 40), (2_000, 7, 9)];
    let heard =
        heard.map(|(offset, volume, quietest)| Segment { offset, volume, quietest, ..marked });
    assert!(table.segments().eq(heard));
}

/// The quietest in the first segment, in the second, in both; one of another key does not count.
#[test]
fn an_event_has_the_quietest_of_its_segments() {
    for (one, two, both) in [
        ((10, 30), (10, 20), (10, 30)),
        ((10, 20), (10, 30), (10, 30)),
        ((10, 30), (5, 30), (5, 30)),
        ((10, 10), (11, 11), (10, 11)),
        ((11, 11), (10, 10), (10, 11)),
        ((0, 0), (63, 63), (0, 63)),
        ((0, 63), (7, 9), (0, 63)),
    ] {
        let segment = |(volume, quietest)| Segment { volume, quietest, ..Segment::default() };
        let first = Segment { code: 5, duration: 400, marked: true, ..segment(one) };
        let second = Segment { offset: 400, code: 5, duration: 400, ..segment(two) };
        let joined = Event { length: 800, ..press(both.0, both.1) };
        assert_eq!(events(first, second), [joined]);
        // Begun anew, or of another key, each has its own.
        let apart = [press(one.0, one.1), Event { start: 400, ..press(two.0, two.1) }];
        assert_eq!(events(first, Segment { marked: true, ..second }), apart);
        let other = Event { code: 6, began: false, ..apart[1] };
        assert_eq!(events(first, Segment { code: 6, ..second }), [apart[0], other]);
    }
}

/// A press as it is sent, in three segments: all of it, or no more than is needed.
#[test]
fn the_volume_sent_is_the_loudest_and_the_quietest() {
    for volume in 0..64 {
        let plan = Plan { volume: volume.into(), length: 1_000, segment_size: 400, ..P7 };
        let packets: Vec<_> = plan.packets(KEYS).unwrap().collect();
        assert_eq!(packets.len(), 3 * 3);
        for arrive in [&[0, 1, 2, 3, 4, 5, 6, 7, 8][..], &[0, 4, 8], &[7, 3, 0, 3]] {
            let mut table = p7_table();
            assert!(arrive.iter().all(|&k| table.receive(&packets[k]).is_ok()));
            let whole = Event { length: 1_000, ended: true, ..press(volume, volume) };
            assert_eq!(table.events().unwrap(), [whole]);
            assert!(table.segments().all(|s| (s.volume, s.quietest) == (volume, volume)));
        }
    }
}

/// Both sides of each edge, in each of three places. A quietest above 63 has no room in a table:
/// it is tried in a segment alone.
#[test]
fn the_quietest_ends_at_63_and_is_not_below_the_loudest() {
    for (volume, quietest, is_valid) in [
        (0, 0, true),
        (1, 0, false),
        (10, 9, false),
        (10, 10, true),
        (10, 11, true),
        (0, 63, true),
        (63, 62, false),
        (63, 63, true),
        (64, 63, false),
        (64, 0, false),
        (127, 63, false),
        (128, 63, false),
        (192, 63, false),
        (255, 63, false),
        (255, 0, false),
        (74, 11, false),
        (138, 11, false),
        (202, 11, false),
        (0, 64, false),
        (63, 64, false),
        (64, 64, false),
        (10, 74, false),
        (10, 139, false),
        (10, 203, false),
        (0, 127, false),
        (0, 128, false),
        (0, 192, false),
        (0, 255, false),
        (63, 255, false),
        (127, 127, false),
        (128, 128, false),
        (255, 255, false),
    ] {
        let any = Segment { code: 5, duration: 1, volume: 20, quietest: 30, ..Segment::default() };
        let held = [0, 1, 2].map(|offset| Segment { offset, ..any });
        for place in 0..3 {
            let mut segments = held;
            (segments[place].volume, segments[place].quietest) = (volume, quietest);
            let made = Table::from_segments(KEYS, 101, P7.ssrc, P7.start, &segments);
            let said = made.as_ref().map(|table| table.segments().eq(segments));
            assert_eq!(said, if is_valid { Ok(true) } else { Err(&Refusal::InvalidTable) });

            if quietest > 63 {
                continue;
            }
            let mut table = Table::from_segments(KEYS, 101, P7.ssrc, P7.start, &held).unwrap();
            table.heard[place] = u32::from(volume) << 24 | u32::from(quietest) << 18 | 1;
            assert_eq!(table.is_valid(), is_valid, "{volume} and {quietest}");
            if !is_valid {
                refused_by_all_calls(&table);
            }
            // Above the number held they are not tested.
            table.head.count = place;
            assert!(table.is_valid());
        }
    }
}

/// Every call refuses a table that fails the tests, and changes nothing.
fn refused_by_all_calls(failing: &Table) {
    let (mut table, packet) = (failing.clone(), first_report(0, 10));
    let (mut entries, mut list) = ([Entry::from(0xABCD); 2], [press(1, 2); 4]);
    let refused = Refusal::InvalidTable;
    assert_eq!(table.receive_counting(&packet), (Err(refused), 0));
    assert_eq!(table.receive_capture(&framed(&packet)), Err(refused));
    assert_eq!(table.receive_redundant(&packet, &mut entries), Err(refused));
    assert_eq!((table.list_into(&mut list), table.event_at(1)), (Err(refused), Err(refused)));
    let result = sys::event_at_columns(table.head, &table.keys, &table.heard, 1);
    assert_eq!(result, EventResult { event: Event::default(), refusal: refused.number() });
    assert_eq!((entries, list), ([Entry::from(0xABCD); 2], [press(1, 2); 4]));
    assert_eq!(&table, failing);
}

/// The codes of a text, or the refusal's number.
fn read(text: &str) -> Result<Vec<u8>, u8> {
    let codes = text.parse::<Codes>().map_err(Refusal::number);
    assert_eq!(Codes::read(text.as_bytes()).map_err(Refusal::number), codes);
    codes.map(|codes| codes.iter().collect())
}

#[test]
fn lists_of_codes_are_read_within_this_grammar() {
    let keys = Vec::from_iter(0..=15);
    assert_eq!(read("0-15,66,70"), Ok([&keys[..], &[66, 70]].concat()));
    for (text, codes) in [
        ("0", &[0][..]),
        ("9", &[9]),
        ("10", &[10]),
        ("99,100", &[99, 100]),
        ("255", &[255]),
        ("254-255", &[254, 255]),
        ("5-6", &[5, 6]),
        ("3,1,2", &[1, 2, 3]),
        ("7,7,7", &[7]),
        ("1-3,2-4,3", &[1, 2, 3, 4]),
        ("63-64,127-128,191-192", &[63, 64, 127, 128, 191, 192]),
    ] {
        assert_eq!(read(text).as_deref(), Ok(codes), "{text}");
    }
    let no_lists = "|,|-|256|260|300|999|1000|00|01|0-015|5-5|9-3|5-4|1,|,1|1,,2|1-2-3|1-|-1|1--2|\
        1-256|+1|1-+2| 1|1 |1, 2|1\n|\n|1\0|0x5|1;2|1.5|A|\u{661}|4294967301|18446744073709551621|\
        99999999999999999999|0-99999999999999999999";
    for text in no_lists.split('|') {
        assert_eq!(read(text), Err(20), "{text:?}");
    }
    assert_eq!(Codes::read(b"1\xFF"), Err(Refusal::NoCodes));
}

#[test]
fn sets_are_written_in_the_longest_ranges() {
    for (given, text) in [
        ("3,4", "3-4"),
        ("3,5", "3,5"),
        ("2-3,5", "2-3,5"),
        ("5,4,3,1", "1,3-5"),
        ("0-63,64-70", "0-70"),
        ("0-64,65-128,129-192,193", "0-193"),
        ("0-127,128-255", "0-255"),
        ("63,64,127,128,191,192", "63-64,127-128,191-192"),
        ("255,0", "0,255"),
        ("9-10,99-100", "9-10,99-100"),
    ] {
        let codes: Codes = given.parse().unwrap();
        assert_eq!(codes.to_string(), text);
        // 14 with one byte fewer than that; what stands behind the text stays.
        let mut output = [0xEE; 40];
        let written = codes.write_to(&mut output[..text.len() - 1]);
        assert_eq!((written, output), (Err(Refusal::OutputTooSmall), [0xEE; 40]));
        assert_eq!(codes.write_to(&mut output[..text.len()]), Ok(text.len()));
        assert_eq!(&output[..text.len()], text.as_bytes());
        assert!(output[text.len()..].iter().all(|&byte| byte == 0xEE));
    }
}

#[test]
fn an_empty_set_has_no_text_and_no_lowest_code() {
    let mut output = [0xEE; 8];
    // 20 comes before 14.
    for bytes in [0, 8] {
        assert_eq!(Codes::EMPTY.write_to(&mut output[..bytes]), Err(Refusal::NoCodes));
    }
    assert_eq!(output, [0xEE; 8]);
    assert_eq!(Codes::EMPTY.lowest(), Err(Refusal::NoCodes));
    assert_eq!((Codes::EMPTY.len(), Codes::EMPTY.to_string()), (0, String::new()));
    assert!(Codes::EMPTY.is_empty() && Codes::default() == Codes::EMPTY);
    for code in [0, 63, 64, 127, 128, 191, 192, 255] {
        let one = Codes::from_iter([code]);
        assert_eq!((one.len(), one.lowest()), (1, Ok(code)));
        assert!(one.contains(code) && !one.contains(u32::from(code) + 256));
    }
}

#[test]
fn sets_do_what_sets_do() {
    let codes: Codes = "0-15,66,70".parse().unwrap();
    let mut set = Codes::EMPTY;
    assert!(set.insert(70) && !set.insert(70));
    set.extend((0..=15).chain([66]));
    assert_eq!(set, codes);
    assert!(set.remove(3) && !set.remove(3) && !set.contains(3));
    assert_eq!((set | KEYS, set & KEYS), (codes, "0-2,4-15".parse().unwrap()));
    assert!((&codes).into_iter().eq(codes) && codes.into_iter().len() == 18);
    let (mut both_ends, mut taken) = (codes.iter(), Vec::new());
    while let Some(code) = both_ends.next_back() {
        taken.extend([Some(code), both_ends.next()].into_iter().flatten());
    }
    assert_eq!(taken[..6], [70, 0, 66, 1, 15, 2]);
    assert_eq!((taken.len(), both_ends.next(), both_ends.len()), (18, None, 0));
    assert_eq!(format!("{codes:?} {codes:>12}|"), "Codes(0-15,66,70)   0-15,66,70|");
    assert_eq!(HashSet::from([codes, set, codes]).len(), 2);
    assert_eq!(<[u64; 4]>::from(codes), [0xFFFF, 0x44, 0, 0]);
}

/// Both sides of a set's edge, in every call that takes one.
#[test]
fn codes_end_where_the_set_does() {
    let of_66 = Plan { code: 66, ..P7 };
    let mut packet = [0; 16];
    of_66.write_report("66".parse().unwrap(), 1, &mut packet).unwrap();
    let report = Report { code: 66, ..REPORT };
    for (text, is_in) in [
        ("66", true),
        ("0-255", true),
        ("0-15,66,70", true),
        ("0-15", false),
        ("0-65,67-255", false),
    ] {
        let codes: Codes = text.parse().unwrap();
        let (taken, given) = if is_in { (Ok(()), Ok(())) } else { (Err(8), Err(12)) };
        let said = Report::read(codes, &packet).map(|report| assert_eq!(report.code, 66));
        assert_eq!(said.map_err(Refusal::number), taken, "{text}");
        let mut table = Table::open(codes, 101, P7.ssrc, P7.start).unwrap();
        assert_eq!(table.codes(), codes);
        assert_eq!(table.receive(&packet).map(|_| ()).map_err(Refusal::number), taken, "{text}");
        let mut table = Table::open_redundant(codes, 101, 96, P7.ssrc, P7.start).unwrap();
        let mut entries = [Entry::default()];
        assert_eq!(table.receive_redundant(&packet, &mut entries), Ok(1));
        assert_eq!(entries[0].answer().map(|_| ()).map_err(Refusal::number), taken, "{text}");
        assert_eq!(report.write(codes, &mut [0; 16]).map_err(Refusal::number), given, "{text}");
        let written = report.write_redundant(codes, 96, &[], &mut [0; 17]).map(|_| ());
        assert_eq!(written.map_err(Refusal::number), given, "{text}");
        assert_eq!(of_66.report_count(codes).map(|_| ()).map_err(Refusal::number), given, "{text}");
        let written = of_66.write_report(codes, 1, &mut [0; 16]);
        assert_eq!(written.map_err(Refusal::number), given, "{text}");
    }
    // The older reports' codes too.
    let codes: Codes = "5".parse().unwrap();
    for (code, is_in) in [(5, true), (6, false), (5 + 256, false)] {
        let older = OlderReport { timestamp: REPORT.timestamp, code, ..OLDER[1] };
        let written = REPORT.write_redundant(codes, 96, &[older], &mut [0; 25]);
        assert_eq!(written, if is_in { Ok(25) } else { Err(Refusal::OutOfRange) });
    }
}

#[test]
fn nothing_is_opened_or_written_with_an_empty_set() {
    let none = Codes::EMPTY;
    assert_eq!(Table::open(none, 101, 7, 0), Err(Refusal::OutOfRange));
    assert_eq!(Table::open_redundant(none, 101, 96, 7, 0), Err(Refusal::OutOfRange));
    assert_eq!(Table::from_segments(none, 101, 7, 0, &[]), Err(Refusal::OutOfRange));
    assert_eq!(REPORT.write(none, &mut []), Err(Refusal::OutOfRange));
    assert_eq!(REPORT.write_redundant(none, 96, &[], &mut []), Err(Refusal::OutOfRange));
    assert_eq!(P7.report_count(none), Err(Refusal::OutOfRange));
    assert_eq!(P7.write_report(none, 0, &mut []), Err(Refusal::OutOfRange));
    // The reader and the receivers have 8 for every code.
    let mut table = Table::open(KEYS, 101, P7.ssrc, P7.start).unwrap();
    table.head.codes = none;
    assert!(table.is_valid());
    for code in 0..=255 {
        let mut packet = P7.packets(KEYS).unwrap().next().unwrap();
        packet[12] = code;
        assert_eq!(Report::read(none, &packet), Err(Refusal::CodeNotInSet));
        assert_eq!(table.receive(&packet), Err(Refusal::CodeNotInSet));
    }
    assert_eq!(table.events(), Ok(Vec::new()));
}

#[test]
fn a_table_holds_codes_of_its_set() {
    let segment = |code| Segment { code, duration: 1, ..Segment::default() };
    let codes: Codes = "5,70,255".parse().unwrap();
    let held = [5, 70, 255].map(segment);
    let table = Table::from_segments(codes, 101, 7, 0, &held).unwrap();
    assert_eq!(table.events().unwrap().len(), 3);
    for (without, is_valid) in [(5, false), (70, false), (255, false), (6, true)] {
        let mut table = table.clone();
        table.head.codes.remove(without);
        assert_eq!(table.is_valid(), is_valid);
        assert_eq!(table.events().is_ok(), is_valid);
        // Above the number held the codes are not tested.
        table.head.count = 0;
        assert!(table.is_valid());
    }
    for code in [4, 6, 69, 71, 254] {
        let refused = Table::from_segments(codes, 101, 7, 0, &[segment(code)]);
        assert_eq!(refused, Err(Refusal::InvalidTable));
    }
}

#[test]
fn each_refusal_has_its_number_and_words() {
    assert!(Refusal::ALL.map(Refusal::number).into_iter().eq(1..=20));
    let words = Refusal::ALL.map(|refusal| refusal.to_string());
    assert_eq!(HashSet::from(words).len(), 20);
    assert!(Refusal::ALL.is_sorted() && Refusal::NoCodes < Refusal::Unknown);
    for number in 0..=255 {
        let known = Refusal::ALL.into_iter().find(|refusal| refusal.number() == number);
        assert_eq!(Refusal::try_from(number), known.ok_or(UnknownRefusal(number)));
    }
}

#[test]
fn a_payload_type_may_be_of_any_width() {
    let table = Table::open(KEYS, 101, 7, 0).unwrap();
    let head = table.head;
    assert_eq!(Table::open(KEYS, head.payload_type, 7, 0).as_ref(), Ok(&table));
    assert_eq!(Table::open(KEYS, P7.payload_type, 7, 0).as_ref(), Ok(&table));
    assert_eq!(Table::from_segments(KEYS, 101_usize, 7, 0, &[]), Ok(table));
    let refused = [
        Table::open(KEYS, -1, 7, 0),
        Table::open(KEYS, 128, 7, 0),
        Table::open(KEYS, 1_u64 << 32, 7, 0),
    ];
    assert_eq!(refused, [const { Err(Refusal::OutOfRange) }; 3]);
}
