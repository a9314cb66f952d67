//! "From segments to events".

use super::table::{Segment, Table, is_valid};
use twimbor::Event;

/// The place of the nearest earlier segment of the same code.
pub fn nearest(segments: &[Segment], this: &Segment) -> Option<usize> {
    let earlier = |s: &Segment| s.code == this.code && s.offset < this.offset;
    let earlier = (0..segments.len()).filter(|&i| earlier(&segments[i]));
    earlier.max_by_key(|&i| segments[i].offset)
}

/// The place of the segment that this one continues, if it continues one.
fn continued(segments: &[Segment], this: &Segment) -> Option<usize> {
    if this.marked {
        return None;
    }
    let nearest = nearest(segments, this)?;
    let Segment { offset, duration, ended, .. } = segments[nearest];
    let ends_there = offset + u64::from(duration) == this.offset;
    (!ended && ends_there).then_some(nearest)
}

/// The events of a table.
pub fn events(table: &Table) -> Result<Vec<Event>, u8> {
    if !is_valid(table) {
        return Err(16);
    }
    let segments = &table.segments[..table.count];
    let continued: Vec<_> = segments.iter().map(|s| continued(segments, s)).collect();
    let mut events = Vec::new();
    for beginning in (0..segments.len()).filter(|&i| continued[i].is_none()) {
        let follower = |&last: &usize| continued.iter().position(|&one| one == Some(last));
        let chain = std::iter::successors(Some(beginning), follower);
        let chain: Vec<&Segment> = chain.map(|i| &segments[i]).collect();
        events.push(Event {
            code: chain[0].code,
            start: chain[0].offset as u32,
            length: chain.iter().map(|s| u32::from(s.duration)).sum(),
            volume: chain.iter().map(|s| s.volume).min().unwrap(),
            quietest: chain.iter().map(|s| s.quietest).max().unwrap(),
            began: chain[0].marked,
            ended: chain[chain.len() - 1].ended,
        });
    }
    events.sort_by_key(|event| (event.start, event.code));
    Ok(events)
}

/// The event at number k, of those that [`events`] gives.
pub fn event_at(events: &Result<Vec<Event>, u8>, k: u32) -> Result<Event, u8> {
    let events = events.as_ref().map_err(|&number| number)?;
    if k == 0 || k as usize > events.len() {
        return Err(13);
    }
    Ok(events[k as usize - 1])
}

/// Writes the events that [`events`] gives into a lent list, and answers how many.
pub fn list(events: &Result<Vec<Event>, u8>, lent: &mut [Event]) -> Result<usize, u8> {
    let events = events.as_ref().map_err(|&number| number)?;
    if lent.len() < events.len() {
        return Err(15);
    }
    lent[..events.len()].copy_from_slice(events);
    Ok(events.len())
}
