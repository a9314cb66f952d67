//! read and write.

use crate::both::library_codes;
use crate::make::{self, codes};
use crate::paper::codes::Codes;
use crate::paper::packet as paper;
use crate::random::Random;
use crate::tally::Tally;
use twimbor::sys::{self, ReadResult};
use twimbor::{Refusal, Report};

pub const INPUTS: usize = 400_000 + 150_000;

fn read(codes: &Codes, packet: &[u8]) -> Result<Report, u8> {
    let answer = paper::read(codes, packet);
    let report = answer.unwrap_or_default();
    let refusal = answer.err().unwrap_or(0);
    let set = library_codes(codes);
    assert_eq!(sys::read(set, packet), ReadResult { report, refusal }, "{packet:02x?}, {codes:?}");
    let said = Report::read(set, packet).map_err(Refusal::number);
    assert_eq!(said, answer, "{packet:02x?}, {codes:?}");
    answer
}

/// Lends the first so many bytes of a larger output, so that a byte written too far is seen.
fn write(random: &Random, codes: &Codes, report: &Report, bytes: usize) -> Result<(), u8> {
    let set = library_codes(codes);
    let before = random.bytes(bytes + 8);
    let mut expected = before.clone();
    let answer = paper::write(codes, report, &mut expected[..bytes]);
    let mut output = before.clone();
    let refusal = sys::write(set, *report, &mut output[..bytes]);
    assert_eq!((refusal, &output), (answer.err().unwrap_or(0), &expected), "{report:?}, {codes:?}");
    let mut output = before.clone();
    let said = report.write(set, &mut output[..bytes]);
    assert_eq!(
        (said.map_err(Refusal::number), &output),
        (answer, &expected),
        "{report:?}, {codes:?}"
    );
    answer
}

#[test]
fn packets_are_read_as_on_paper() {
    let random = &Random::new(1);
    let mut tally = Tally::default();
    for _ in 0..400_000 {
        let codes = codes::codes(random);
        let report = make::report(random, &codes);
        let packet = make::packets::packet(random, &report);
        let answer = read(&codes, &packet);
        tally.add(answer);
        // There and back: a readable packet with P, X, CSRC count and R all 0.
        if answer.is_ok() && packet[0] == 0x80 && packet[13] & 0x40 == 0 {
            let mut output = [0; 16];
            let written = answer.map(|report| report.write(library_codes(&codes), &mut output));
            assert_eq!(written, Ok(Ok(())));
            assert_eq!(output, packet[..]);
        }
    }
    tally.finish("read", &[1, 2, 3, 4, 7, 8, 9, 17]);
}

#[test]
fn reports_are_written_as_on_paper() {
    let random = &Random::new(2);
    let mut tally = Tally::default();
    for _ in 0..150_000 {
        let codes = codes::codes(random);
        let report = make::report(random, &codes);
        let bytes = random.pick(&[0, 15, 16, 16, 17, 17, random.index(40)]);
        let answer = write(random, &codes, &report, bytes);
        tally.add(answer);
        if answer.is_ok() {
            let (codes, mut output) = (library_codes(&codes), [0; 16]);
            assert_eq!(report.write(codes, &mut output), Ok(()));
            assert_eq!(Report::read(codes, &output), Ok(report));
        }
    }
    tally.finish("write", &[12, 14]);
}

/// The longest extension has 65,535 words, and a payload may be longer than 16 bits say: random
/// packets do not get there.
#[test]
fn long_packets_are_read_as_on_paper() {
    let read = |packet: &[u8]| read(&Codes::of([5]), packet);
    let mut packet = vec![0x90; 12];
    packet.extend([0, 0, 0xFF, 0xFF]);
    packet.extend(vec![7; 4 * 65_535]);
    packet.extend([5, 0x8A, 0, 1]);
    assert!(read(&packet).is_ok());
    assert_eq!(read(&packet[..packet.len() - 1]), Err(7));
    assert_eq!(read(&packet[..packet.len() - 4]), Err(7));
    assert_eq!(read(&packet[..packet.len() - 5]), Err(3));
    for (more, refusal) in [(4, 17), (65_532, 17), (1, 7)] {
        packet.extend(vec![0; more]);
        assert_eq!(read(&packet), Err(refusal));
    }
}
