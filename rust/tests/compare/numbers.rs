//! A segment and the two numbers that a table keeps it in, both ways, as `include/twimbor.h` draws
//! them.

use crate::random::Random;
use twimbor::{Segment, sys};

const INPUTS: usize = 1_000_000;

fn segment_of(key: u64, heard: u32) -> Segment {
    Segment {
        offset: u32::try_from(key / 256).unwrap_or(0xFFFF_FFFF),
        code: (key % 256) as u8,
        duration: (heard % 65_536) as u16,
        ended: heard / 65_536 % 2 == 1,
        marked: heard / 131_072 % 2 == 1,
        quietest: (heard / 262_144 % 64) as u8,
        volume: (heard / 16_777_216) as u8,
    }
}

fn numbers_of(segment: &Segment) -> (u64, u32) {
    let &Segment { offset, code, duration, volume, quietest, ended, marked } = segment;
    let volume = if quietest < 64 { volume } else { 255 };
    let flags = 65_536 * u32::from(ended) + 131_072 * u32::from(marked);
    let volumes = 262_144 * u32::from(quietest % 64) + 16_777_216 * u32::from(volume);
    (256 * u64::from(offset) + u64::from(code), u32::from(duration) + flags + volumes)
}

#[test]
fn segments_and_numbers_are_as_on_paper() {
    let random = &Random::new(31);
    let [mut too_large, mut no_room] = [0; 2];
    for _ in 0..INPUTS {
        let (key, heard) = (random.u64() >> random.pick(&[0, 16, 24, 25, 40]), random.u32());
        let segment = sys::segment_of_numbers(key, heard);
        assert_eq!(segment, segment_of(key, heard), "{key:x} {heard:x}");
        let given = Segment { quietest: random.u8(), volume: random.u8(), ..segment };
        for given in [segment, given] {
            let numbers = sys::numbers_of_segment(given);
            assert_eq!((numbers.key, numbers.heard), numbers_of(&given), "{given:?}");
        }
        too_large += usize::from(key >> 40 > 0);
        no_room += usize::from(given.quietest > 63);
    }
    println!("segments and numbers: {INPUTS}, offsets too large: {too_large}, quietest: {no_room}");
    assert!(too_large > INPUTS / 4 && no_room > INPUTS / 4);
}
