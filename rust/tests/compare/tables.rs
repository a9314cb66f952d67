//! open, tables made of segments, the tests of refusal 16, and receive.

use crate::both::{Both, library, library_codes, segment};
use crate::make::codes::{codes, few, some_codes};
use crate::make::packets::{damage, packet_for};
use crate::make::{self, tables};
use crate::paper::codes::EMPTY;
use crate::paper::table::{self as paper, Segment, Table};
use crate::paper::{packet, plan};
use crate::random::Random;
use crate::tally::Tally;
use std::collections::BTreeMap;
use twimbor::sys::{self, Opened, Received};
use twimbor::{Plan, Refusal, Taken};

pub const INPUTS: usize = OPENINGS + MADE + TABLES + RECEIVED;
const OPENINGS: usize = 50_000;
const MADE: usize = 50_000;
const TABLES: usize = 150_000;
const RECEIVED: usize = 200_000;

/// Receives with the library and on paper; the tables go on as each leaves its own.
pub fn receive(both: &mut Both, packet: &[u8]) -> Result<Taken, u8> {
    receive_counting(both, packet).0
}

/// The same, and how many segments were looked at.
pub fn receive_counting(both: &mut Both, packet: &[u8]) -> (Result<Taken, u8>, usize) {
    let mut lent = both.library.clone();
    let answer = paper::receive(&mut both.paper, packet);
    let (Ok((_, probes)) | Err((_, probes))) = answer;
    let is_new = answer.map(|(is_new, _)| is_new).map_err(|(number, _)| number);
    let received = Received {
        refusal: u64::from(is_new.err().unwrap_or(0)),
        is_new: is_new == Ok(true),
        count: both.paper.count,
        probes,
    };
    let answer = sys::receive_columns(lent.head, &mut lent.keys, &mut lent.heard, packet);
    assert_eq!(answer, received, "{packet:02x?} in {both:?}");
    let taken = is_new.map(|is_new| if is_new { Taken::New } else { Taken::Known });
    let (said, looked_at) = both.library.receive_counting(packet);
    assert_eq!((said.map_err(Refusal::number), looked_at), (taken, probes), "{packet:02x?}");
    assert_eq!((lent.keys, lent.heard), (both.library.keys, both.library.heard), "{packet:02x?}");
    both.compare();
    (taken, probes)
}

#[test]
fn tables_are_opened_as_on_paper() {
    let random = &Random::new(5);
    let mut tally = Tally::default();
    for _ in 0..OPENINGS {
        let payload_type = make::number(random, 0, 127);
        let (codes, ssrc, origin) = (codes(random), random.u32(), random.u32());
        let (table, answer) = paper::open(codes, payload_type, ssrc, origin);
        let opened = Opened { table: library(&table), refusal: answer.err().unwrap_or(0) };
        let codes = library_codes(&codes);
        assert_eq!(sys::open_table(codes, payload_type, ssrc, origin), opened);
        let said = twimbor::Table::open(codes, payload_type, ssrc, origin);
        assert!(said.iter().all(|table| table.codes() == codes));
        assert_eq!(said.map_err(Refusal::number), answer.map(|()| opened.table));
        tally.add(answer);
    }
    tally.finish("open", &[12]);
}

/// A table made of the segments of another, with zeros in the places above, if it passes the tests.
#[test]
fn tables_are_made_of_segments() {
    let random = &Random::new(11);
    let mut tally = Tally::default();
    let (mut failed_alone, mut edges) = (BTreeMap::new(), [0; TOO_QUIET.len()]);
    for i in 0..MADE {
        let table = match i % 4 {
            0 => tables::broken_table(random),
            1 => tables::too_quiet_table(random),
            _ => tables::table(random),
        };
        let payload_type = u32::from(table.payload_type);
        let (ssrc, origin) = (table.ssrc, table.origin);
        let (mut expected, mut answer) = paper::open(table.codes, payload_type, ssrc, origin);
        let held = &table.segments[..table.count.min(128)];
        let mut segments: Vec<_> = held.iter().map(segment).collect();
        if table.count > 128 {
            segments.resize(129, segments[127]);
        }
        expected.count = table.count;
        expected.segments[..held.len()].copy_from_slice(held);
        if answer.is_ok() {
            count_failed(&expected, &mut failed_alone, &TOO_QUIET, &mut edges);
        }
        if answer.is_ok() && !paper::is_valid(&expected) {
            answer = Err(16);
        }
        let codes = library_codes(&table.codes);
        let made = twimbor::Table::from_segments(codes, payload_type, ssrc, origin, &segments);
        assert_eq!(made.map_err(Refusal::number), answer.map(|()| library(&expected)));
        tally.add(answer);
    }
    tally.finish("table of segments", &[12, 16]);
    say_failed(&TOO_QUIET_FAILED, &failed_alone, &TOO_QUIET, &edges);
    assert!(TOO_QUIET_FAILED.iter().all(|&tests| failed_alone[tests] > MADE / 1_000));
    assert!(edges.iter().all(|&count| count > MADE / 1_000));
}

/// Which tests of [`paper::failed`] a table fails, by their places, and how many tables fail these
/// and no other.
type FailedAlone = BTreeMap<Vec<usize>, usize>;

/// The tests that a table may fail with no other. A volume above 63 is above every quietest that a
/// place can say, and none of these is above 63.
const FAILED: [&[usize]; 10] = [&[0], &[1], &[2], &[3], &[4], &[5, 6], &[6], &[8], &[9], &[10]];

/// Those that only segments fail which a table is made of.
const TOO_QUIET_FAILED: [&[usize]; 3] = [&[7], &[5, 7], &[5, 6, 7]];

/// A segment's volumes at the edges of their tests.
type Edge = (&'static str, fn(&Segment) -> bool);
const EDGES: [Edge; 9] = [
    ("both 0", |s| (s.volume, s.quietest) == (0, 0)),
    ("equal", |s| s.quietest == s.volume),
    ("0 and 63", |s| (s.volume, s.quietest) == (0, 63)),
    ("both 63", |s| (s.volume, s.quietest) == (63, 63)),
    ("the quietest one below", |s| s.quietest + 1 == s.volume && s.volume <= 63),
    ("64 and 63", |s| (s.volume, s.quietest) == (64, 63)),
    ("255 and any", |s| s.volume == 255 && s.quietest < 63),
    ("255 and 63", |s| (s.volume, s.quietest) == (255, 63)),
    ("right in 6 bits", |s| s.volume > 63 && s.volume % 64 <= s.quietest),
];
const TOO_QUIET: [Edge; 6] = [
    ("63 and 64", |s| (s.volume, s.quietest) == (63, 64)),
    ("64 above a volume", |s| s.volume <= 63 && s.quietest == 64 + s.volume),
    ("both 64", |s| (s.volume, s.quietest) == (64, 64)),
    ("any and 255", |s| s.quietest == 255 && s.volume <= 63),
    ("right in 6 bits", |s| s.quietest > 63 && s.volume <= s.quietest % 64),
    ("right in 7 bits", |s| (128..192).contains(&s.quietest) && s.volume <= s.quietest - 128),
];

/// Counts the tests that a table fails, and the edges that decide the three of the volumes.
fn count_failed(table: &Table, failed_alone: &mut FailedAlone, edges: &[Edge], met: &mut [usize]) {
    let failed = paper::failed(table);
    let failed: Vec<_> = (0..failed.len()).filter(|&test| failed[test]).collect();
    if failed.iter().all(|test| (5..=7).contains(test)) {
        let held = &table.segments[..table.count];
        for (count, (_, is_met)) in met.iter_mut().zip(edges) {
            *count += usize::from(held.iter().any(is_met));
        }
    }
    *failed_alone.entry(failed).or_default() += 1;
}

fn say_failed(tests: &[&[usize]], failed_alone: &FailedAlone, edges: &[Edge], met: &[usize]) {
    let counts = tests.iter().map(|&tests| (tests, failed_alone.get(tests).copied().unwrap_or(0)));
    println!(
        "tables that fail these tests of the eleven and no other: {:?}",
        Vec::from_iter(counts)
    );
    println!("tables with volumes {:?}", Vec::from_iter(edges.iter().map(|edge| edge.0).zip(met)));
}

/// Any table, valid or not, gets one packet.
#[test]
fn any_table_receives_as_on_paper() {
    let random = &Random::new(6);
    let mut tally = Tally::default();
    let (mut failed_alone, mut edges) = (BTreeMap::new(), [0; EDGES.len()]);
    let (mut known_when_full, mut no_codes) = (0, 0);
    for i in 0..TABLES {
        let mut both = Both::of(match i % 3 {
            0 => tables::broken_table(random),
            _ => tables::table(random),
        });
        assert_eq!(both.library.is_valid(), paper::is_valid(&both.paper), "{both:?}");
        count_failed(&both.paper, &mut failed_alone, &EDGES, &mut edges);
        let packet = packet_for(random, &both.paper);
        let answer = receive(&mut both, &packet);
        tally.add(answer);
        known_when_full += usize::from(both.paper.count == 128 && answer == Ok(Taken::Known));
        no_codes += usize::from(both.paper.codes == EMPTY && answer == Err(8));
    }
    tally.finish("receive", &[1, 2, 3, 4, 5, 6, 7, 8, 9, 10, 11, 16, 17]);
    say_failed(&FAILED, &failed_alone, &EDGES, &edges);
    println!("known segments of full tables: {known_when_full}; codes to empty sets: {no_codes}");
    assert!(FAILED.iter().all(|&tests| failed_alone.contains_key(tests)) && known_when_full > 0);
    assert!(edges.iter().all(|&count| count > TABLES / 1_000) && no_codes > 0);
}

/// Packets one after another on an opened table: of some plans, in any order, repeated, damaged,
/// and others. There are more pairs of offset and code than places.
#[test]
fn a_table_receives_many_as_on_paper() {
    let random = &Random::new(7);
    let mut tally = Tally::default();
    for _ in 0..RECEIVED / 500 {
        let codes = some_codes(random);
        let (table, _) = paper::open(codes, random.below(128), random.u32(), random.u32());
        let mut both = Both::of(table);
        let sent: Vec<_> = (0..8).flat_map(|_| sent(random, &both.paper)).collect();
        for _ in 0..500 {
            let mut packet = random.pick(&sent);
            if random.one_in(3) {
                packet = packet_for(random, &both.paper);
            }
            if random.one_in(10) {
                damage(random, &mut packet);
            }
            tally.add(receive(&mut both, &packet));
        }
    }
    tally.finish("receive in turn", &[1, 2, 3, 4, 5, 6, 7, 8, 9, 10, 11, 17]);
}

/// The packets of an event that is sent to a table.
pub fn sent(random: &Random, table: &Table) -> Vec<Vec<u8>> {
    let segment_size = random.pick(&[65_535, 1 + random.below(65_535), 1 + random.below(100)]);
    let plan = Plan {
        payload_type: u32::from(table.payload_type),
        ssrc: table.ssrc,
        sequence: random.u16(),
        start: table.origin.wrapping_add(random.u32() >> 1),
        code: few(random, &table.codes, 1)[0].into(),
        volume: random.below(64),
        length: 1 + random.below(16 * segment_size),
        period: segment_size.div_ceil(1 + random.below(4)),
        segment_size,
    };
    plan::reports(&table.codes, &plan).unwrap().iter().map(packet::bytes).collect()
}
