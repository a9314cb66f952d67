//! The event at a number, and the list into lent records.

use crate::both::Both;
use crate::make::tables::{any_event, broken_table, table};
use crate::paper::events as paper;
use crate::paper::table::Segment;
use crate::random::Random;
use crate::tally::Tally;
use twimbor::sys::{self, EventResult, Listed};
use twimbor::{Event, Refusal, Table};

pub const INPUTS: usize = TABLES * 8;
const TABLES: usize = 15_000;

type Events = Result<Vec<Event>, u8>;

fn event_at(table: &Table, events: &Events, k: u32) -> Result<Event, u8> {
    let answer = paper::event_at(events, k);
    let refusal = answer.err().unwrap_or(0);
    let result = EventResult { event: answer.unwrap_or_default(), refusal };
    let said = sys::event_at_columns(table.head, &table.keys, &table.heard, k);
    assert_eq!(said, result, "{k} of {table:?}");
    assert_eq!(table.event_at(k).map_err(Refusal::number), answer, "{k} of {table:?}");
    answer
}

/// Lends the first so many records of a longer list, so that a record written too far is seen.
pub fn list(
    random: &Random,
    (table, events): (&Table, &Events),
    records: usize,
) -> Result<usize, u8> {
    let before: Vec<Event> = (0..records + 2).map(|_| any_event(random)).collect();
    let mut expected = before.clone();
    let answer = paper::list(events, &mut expected[..records]);
    let listed = Listed { refusal: answer.err().unwrap_or(0), events: answer.unwrap_or(0) };
    let mut lent = before.clone();
    let said = sys::list_columns(table.head, &table.keys, &table.heard, &mut lent[..records]);
    assert_eq!((said, &lent), (listed, &expected), "{records} for {table:?}");
    let mut lent = before.clone();
    let said = table.list_into(&mut lent[..records]).map_err(Refusal::number);
    assert_eq!((said, lent), (answer, expected), "{records} for {table:?}");
    answer
}

/// Counts the unmarked segments that start one unit before the end of the nearest earlier one of
/// their code, at its end, and one unit after it, where that one has no E and is shorter than
/// 65,535 units.
fn count_meetings(segments: &[Segment], counts: &mut [usize; 3]) {
    for this in segments.iter().filter(|this| !this.marked) {
        let nearest = paper::nearest(segments, this).map(|i| segments[i]);
        if let Some(nearest) = nearest.filter(|s| !s.ended && s.duration < 65_535) {
            let end = nearest.offset + u64::from(nearest.duration);
            for (count, start) in counts.iter_mut().zip(end - 1..) {
                *count += usize::from(this.offset == start);
            }
        }
    }
}

/// Counts the events of several segments whose quietest is that of the first, and the others.
fn count_quietest(segments: &[Segment], events: &[Event], counts: &mut [usize; 2]) {
    for event in events {
        let is_first = |s: &&Segment| (s.offset, s.code) == (event.start.into(), event.code);
        let first = segments.iter().find(is_first).unwrap();
        if event.length > first.duration.into() {
            counts[usize::from(event.quietest > first.quietest)] += 1;
        }
    }
}

#[test]
fn events_are_listed_as_on_paper() {
    let random = &Random::new(8);
    let (mut numbers, mut lists) = (Tally::default(), Tally::default());
    let (mut met, mut quietest) = ([0; 3], [0; 2]);
    for i in 0..TABLES {
        let both = Both::of(if i % 4 == 0 { broken_table(random) } else { table(random) });
        let events = paper::events(&both.paper);
        let table = &both.library;
        assert_eq!(table.events().map_err(Refusal::number), events, "{table:?}");
        let n = events.as_ref().map_or(0, Vec::len);
        for records in [n.saturating_sub(1), n, n + 1, random.index(160)] {
            lists.add(list(random, (table, &events), records));
        }
        let n = n as u32;
        for k in [random.pick(&[0, u32::MAX, random.u32()]), 1 + random.below(n.max(1)), n, n + 1] {
            numbers.add(event_at(table, &events, k));
        }
        both.compare();
        if let Ok(events) = &events {
            let segments = &both.paper.segments[..both.paper.count];
            count_meetings(segments, &mut met);
            count_quietest(segments, events, &mut quietest);
        }
    }
    numbers.finish("event_at", &[13, 16]);
    lists.finish("list", &[15, 16]);
    println!("unmarked segments one unit before the end of a short one, at it, after it: {met:?}");
    println!(
        "events whose quietest is that of the first of several segments, or not: {quietest:?}"
    );
    assert!(!met.contains(&0) && quietest.iter().all(|&count| count > TABLES / 100));
}
