//! The structs, numbers and words of this crate compared with those of include/twimbor.h: the tests
//! write a C file that asserts this crate's, for the C compiler to check, and one that prints the
//! header's.

use std::fs;
use std::mem::{offset_of, size_of};
use std::process::Command;
use twimbor::sys::{HeaderStepResult, WalkStarted};
use twimbor::sys::{BlockStepResult, BlocksReceived, Captured, CodesResult, CountResult, Cursor};
use twimbor::sys::{EventResult, Listed, LowestResult, Opened, ReadResult, Received};
use twimbor::sys::{SegmentNumbers, TextResult};
use twimbor::{
    CODES_BYTES, Codes, Entry, Event, Head, LONGEST_EVENT, OLDER_REPORTS, OlderReport,
    PACKET_BYTES, PLACES,
};
use twimbor::{Plan, REDUNDANT_BYTES, Refusal, Report, Segment, Table, Taken};

const HEADER: &str = concat!(env!("CARGO_MANIFEST_DIR"), "/../include/twimbor.h");

fn assertion(c: &str, value: usize) -> String {
    format!("_Static_assert({c} == {value}, \"not as in Rust\");\n")
}

fn size_of_field<S, F>(_: fn(&S) -> &F) -> usize {
    size_of::<F>()
}

/// A struct's size, and the place and size of each of its fields.
macro_rules! layout {
    ($file:ident, $struct:ident as $c:literal { $($field:ident),* }) => {
        // Does not compile if a field is left out.
        let _ = |&$struct { $($field: _),* }: &$struct| ();
        $file += &assertion(concat!("sizeof(", $c, ")"), size_of::<$struct>());
        $(
            let name = concat!("offsetof(", $c, ", ", stringify!($field), ")");
            $file += &assertion(name, offset_of!($struct, $field));
            let name = concat!("sizeof((*(", $c, " *)0).", stringify!($field), ")");
            $file += &assertion(name, size_of_field(|s: &$struct| &s.$field));
        )*
    };
}

/// TooShort is TWIMBOR_TOO_SHORT in C.
fn name_in_c(refusal: Refusal) -> String {
    let mut name = "TWIMBOR".to_string();
    for letter in format!("{refusal:?}").chars() {
        if letter.is_uppercase() {
            name.push('_');
        }
        name.push(letter.to_ascii_uppercase());
    }
    name
}

#[test]
fn structs_and_numbers_are_the_headers() {
    let mut file = format!("#include \"{HEADER}\"\n");
    // A set is four words here, and a field for each in C.
    file += &assertion("sizeof(twimbor_codes)", size_of::<Codes>());
    for (word, field) in ["from_0", "from_64", "from_128", "from_192"].iter().enumerate() {
        let place = format!("offsetof(twimbor_codes, {field})");
        file += &assertion(&place, word * size_of::<u64>());
    }
    layout!(file, CodesResult as "twimbor_codes_result" { codes, refusal });
    layout!(file, TextResult as "twimbor_text_result" { bytes, refusal });
    layout!(file, LowestResult as "twimbor_lowest_result" { code, refusal });
    layout!(file, Report as "twimbor_report" {
        marker, payload_type, sequence, timestamp, ssrc, code, ended, volume, duration
    });
    layout!(file, Plan as "twimbor_plan" {
        payload_type, ssrc, sequence, start, code, volume, length, period, segment_size
    });
    layout!(file, OlderReport as "twimbor_older_report" {
        timestamp, code, ended, volume, duration
    });
    layout!(file, Cursor as "twimbor_cursor" { header, body, end });
    layout!(file, WalkStarted as "twimbor_walk_started" { cursor, refusal });
    layout!(file, BlockStepResult as "twimbor_block_step_result" {
        after, start, end, offset, payload_type, primary, found
    });
    layout!(file, HeaderStepResult as "twimbor_header_step_result" {
        next, length, offset, payload_type, primary, found
    });
    layout!(file, Head as "twimbor_head" {
        payload_type, both_types, redundant_type, ssrc, origin, codes, count
    });
    layout!(file, Table as "twimbor_table" { head, keys, heard });
    layout!(file, Segment as "twimbor_segment" {
        offset, code, duration, volume, quietest, ended, marked
    });
    layout!(file, SegmentNumbers as "twimbor_segment_numbers" { key, heard });
    layout!(file, Event as "twimbor_event" {
        code, start, length, volume, quietest, began, ended
    });
    layout!(file, ReadResult as "twimbor_read_result" { report, refusal });
    layout!(file, CountResult as "twimbor_count_result" { reports, refusal });
    layout!(file, Opened as "twimbor_opened" { table, refusal });
    layout!(file, Received as "twimbor_received" { refusal, is_new, count, probes });
    layout!(file, Captured as "twimbor_captured" {
        refusal, count, used, taken, refused, packed
    });
    layout!(file, BlocksReceived as "twimbor_blocks_received" { blocks, count, refusal });
    layout!(file, EventResult as "twimbor_event_result" { event, refusal });
    layout!(file, Listed as "twimbor_listed" { refusal, events });
    for refusal in Refusal::ALL {
        file += &assertion(&name_in_c(refusal), usize::from(refusal.number()));
    }
    file += &assertion("TWIMBOR_PLACES", PLACES);
    file += &assertion("TWIMBOR_LONGEST_EVENT", LONGEST_EVENT as usize);
    file += &assertion("TWIMBOR_PACKET_BYTES", PACKET_BYTES);
    file += &assertion("TWIMBOR_OLDER_REPORTS", OLDER_REPORTS);
    file += &assertion("TWIMBOR_REDUNDANT_BYTES", REDUNDANT_BYTES);
    file += &assertion("TWIMBOR_CODES_BYTES", CODES_BYTES);
    file += &assertion("sizeof(uint32_t)", size_of::<Entry>());
    let path = concat!(env!("CARGO_TARGET_TMPDIR"), "/layout.c");
    fs::write(path, file).unwrap();
    compile(&["-fsyntax-only", path]);
}

/// What a C program prints that has a function `say` over the header, and makes these calls.
fn printed_by_c(name: &str, say: &str, calls: &str) -> String {
    let program = format!("{}/{name}", env!("CARGO_TARGET_TMPDIR"));
    let path = format!("{program}.c");
    let main = format!("int main(void)\n{{\n{calls}}}");
    fs::write(&path, format!("#include \"{HEADER}\"\n#include <stdio.h>\n{say}\n{main}\n"))
        .unwrap();
    compile(&[&path, env!("TWIMBOR_ARCHIVE"), "-o", &program]);
    String::from_utf8(Command::new(program).output().unwrap().stdout).unwrap()
}

fn compile(arguments: &[&str]) {
    let compiled = Command::new("cc").arg("-std=c11").args(arguments).status();
    assert!(compiled.expect("a C compiler named cc").success());
}

#[test]
fn version_words_and_keys_are_the_headers() {
    let say = "static void say(twimbor_codes keys)
{
    printf(\"%s %u\\n\", TWIMBOR_VERSION, (unsigned)twimbor_archive_version());
    printf(\"%llx %llx \", (unsigned long long)keys.from_0, (unsigned long long)keys.from_64);
    printf(\"%llx %llx\\n\", (unsigned long long)keys.from_128, (unsigned long long)keys.from_192);
    for (unsigned number = 1; number <= 255; number++) puts(twimbor_refusal_text(number));
    for (unsigned code = 0; code <= 255; code++) putchar(twimbor_key_character(code));
}";
    let version = env!("CARGO_PKG_VERSION");
    let number = version.split('.').fold(0, |n, digits| 1000 * n + digits.parse::<u32>().unwrap());
    let [from_0, from_64, from_128, from_192] = Codes::KEYS.into();
    let keys = format!("{from_0:x} {from_64:x} {from_128:x} {from_192:x}");
    let mut expected = format!("{version} {number}\n{keys}\n");
    for number in 1..=255 {
        expected += &format!("{}\n", Refusal::try_from(number).unwrap_or(Refusal::Unknown));
    }
    expected.extend((0..=255).map(|code| Event { code, ..Event::default() }.key()));
    assert_eq!(printed_by_c("words", say, "    say(TWIMBOR_KEYS);\n"), expected);
}

/// What the header's functions say of an entry, and what this crate says.
#[test]
fn entries_are_read_as_by_the_header() {
    let numbers = [0, 256, 7, 11 | 8 << 16, 1 << 16, 256 | 7 << 16, 17, 255, u32::MAX, 0x1234_5678];
    let mut calls = String::new();
    let mut expected = String::new();
    for number in numbers {
        calls += &format!("    say({number}u);\n");
        let (refusal, is_new) = (number as u8, number & 256 != 0);
        let entry = Entry::from(number);
        expected += &format!("{refusal} {} {}\n", u8::from(is_new), entry.probes());
        let taken = if is_new { Taken::New } else { Taken::Known };
        let known = Refusal::try_from(refusal).unwrap_or(Refusal::Unknown);
        assert_eq!(entry.answer(), if refusal == 0 { Ok(taken) } else { Err(known) });
        assert_eq!(entry.number(), number);
    }
    let say = "static void say(uint32_t entry)
{
    printf(\"%d %d \", twimbor_entry_refusal(entry), twimbor_entry_is_new(entry));
    printf(\"%u\\n\", (unsigned)twimbor_entry_probes(entry));
}";
    assert_eq!(printed_by_c("entries", say, &calls), expected);
}

/// What the header's functions read in the number that a place holds, and what this crate reads;
/// put back, it is the same number.
#[test]
fn segments_are_read_and_put_as_by_the_header() {
    let fields = [1, 0xFFFF, 1 << 16, 1 << 17, 1 << 18, 63 << 18, 1 << 24, 255 << 24];
    let volumes = [(0, 63), (10, 9), (10, 10), (10, 11), (63, 63), (64, 63), (74, 11), (255, 63)];
    let numbers = volumes.map(|(volume, quietest)| volume << 24 | quietest << 18 | 400);
    let numbers = numbers.into_iter().chain([0, u32::MAX, 0x1234_5678]);
    let mut calls = String::new();
    let mut expected = String::new();
    for heard in fields.into_iter().chain(numbers) {
        calls += &format!("    say({heard}u);\n");
        let mut table = Table::open(Codes::KEYS, 101, 7, 0).unwrap();
        (table.head.count, table.heard[0]) = (1, heard);
        let segment = table.segments().next().unwrap();
        let Segment { duration, volume, quietest, ended, marked, .. } = segment;
        let flags = (u8::from(ended), u8::from(marked));
        expected += &format!("{duration} {volume} {quietest} {} {} {heard}\n", flags.0, flags.1);
        let made = Table::from_segments(Codes::KEYS, 101, 7, 0, &[segment]);
        assert!(quietest <= 63);
        let is_valid = duration > 0 && volume <= quietest;
        assert_eq!(made, if is_valid { Ok(table) } else { Err(Refusal::InvalidTable) });
    }
    let say = "static void say(uint32_t heard)
{
    static twimbor_table read, put;
    read.head.count = 1;
    read.heard[0] = heard;
    twimbor_segment s = twimbor_segment_at(&read, 0);
    twimbor_set_segment(&put, 0, s);
    printf(\"%d %d %d %d %d \", s.duration, s.volume, s.quietest, s.ended, s.marked);
    printf(\"%lu\\n\", (unsigned long)put.heard[0]);
}";
    assert_eq!(printed_by_c("segments", say, &calls), expected);
}

/// Two reports of one segment, of every two volumes: each number stands where the header draws it,
/// and a louder or a quieter report moves its own field alone.
#[test]
fn what_is_heard_stands_where_the_header_draws_it() {
    for volume in 0..64 {
        for second in 0..64 {
            let mut table = Table::open(Codes::KEYS, 101, 7, 1000).unwrap();
            let mut receive = |volume, duration| {
                let (payload_type, ssrc, timestamp) = (101, 7, 1000);
                let report = Report { payload_type, ssrc, timestamp, ..Report::default() };
                let mut packet = [0; PACKET_BYTES];
                Report { volume, duration, ..report }.write(Codes::KEYS, &mut packet).unwrap();
                table.receive(&packet).unwrap();
                table.heard[0]
            };
            assert_eq!(receive(volume, 400), volume << 24 | volume << 18 | 400);
            let (loudest, quietest) = (volume.min(second), volume.max(second));
            assert_eq!(receive(second, 1), loudest << 24 | quietest << 18 | 400);
            let [volume, quietest] = [loudest, quietest].map(|number| number as u8);
            let segment = Segment { volume, quietest, duration: 400, ..Segment::default() };
            assert!(table.segments().eq([segment]));
            let made = Table::from_segments(Codes::KEYS, 101, 7, 1000, &[segment]);
            assert_eq!(made, Ok(table));
        }
    }
}
