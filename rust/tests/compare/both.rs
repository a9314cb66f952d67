//! One table twice: the library's, and the one on paper.

use crate::paper::codes::Codes;
use crate::paper::table::{Segment, Table};

#[derive(Clone, Debug)]
pub struct Both {
    pub library: twimbor::Table,
    pub paper: Table,
}

/// The two numbers that a place holds, as `include/twimbor.h` draws them.
fn numbers(segment: &Segment) -> (u64, u32) {
    let Segment { offset, code, duration, volume, quietest, ended, marked } = *segment;
    assert!(quietest < 64, "a place has 6 bits for it");
    let flags = if ended { 0x1_0000 } else { 0 } + if marked { 0x2_0000 } else { 0 };
    let volumes = u32::from(volume) * 0x100_0000 + u32::from(quietest) * 0x4_0000;
    (offset * 256 + u64::from(code), u32::from(duration) + flags + volumes)
}

impl Both {
    pub fn of(paper: Table) -> Both {
        Both { library: library(&paper), paper }
    }

    /// All fields and all places are the same, those above the number held too; and the segments
    /// held are read as they are, an offset too large for its field as the field's largest.
    pub fn compare(&self) {
        assert_eq!(self.library, library(&self.paper), "{self:?}");
        let held = self.paper.segments.iter().take(self.paper.count);
        let read = self.library.segments();
        assert_eq!(read.len(), held.len());
        assert!(read.eq(held.map(segment)), "{self:?}");
    }
}

/// The library's table that holds what one on paper does.
pub fn library(paper: &Table) -> twimbor::Table {
    let Table { ref codes, ref segments, .. } = *paper;
    let Table { payload_type, both_types, redundant_type, ssrc, origin, count, .. } = *paper;
    let codes = library_codes(codes);
    twimbor::Table {
        head: twimbor::Head {
            payload_type,
            both_types,
            redundant_type,
            ssrc,
            origin,
            codes,
            count,
        },
        keys: segments.each_ref().map(|segment| numbers(segment).0),
        heard: segments.each_ref().map(|segment| numbers(segment).1),
    }
}

/// The library's set of the codes that one on paper has: a bit for each, as `include/twimbor.h` says.
pub fn library_codes(paper: &Codes) -> twimbor::Codes {
    let word = |codes: &[bool]| codes.iter().rev().fold(0, |word, &bit| 2 * word + u64::from(bit));
    twimbor::Codes::from(std::array::from_fn(|i| word(&paper.0[64 * i..64 * i + 64])))
}

/// The library's segment that says what one on paper does.
pub fn segment(paper: &Segment) -> twimbor::Segment {
    let &Segment { offset, code, duration, volume, quietest, ended, marked } = paper;
    let offset = offset.min(0xFFFF_FFFF) as u32;
    twimbor::Segment { offset, code, duration, volume, quietest, ended, marked }
}
