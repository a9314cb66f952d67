//! The plan's two calls.

use crate::both::library_codes;
use crate::make::{self, codes};
use crate::paper::codes::Codes;
use crate::paper::plan as paper;
use crate::random::Random;
use crate::tally::Tally;
use twimbor::sys::{self, CountResult};
use twimbor::{Plan, Refusal, Report};

pub const INPUTS: usize = PLANS * (1 + REPORTS);
const PLANS: usize = 40_000;
const REPORTS: usize = 8;

type Reports = Result<Vec<Report>, u8>;

fn report_count(codes: &Codes, plan: &Plan, reports: &Reports) -> Result<u32, u8> {
    let answer = reports.as_ref().map(|reports| reports.len() as u32).map_err(|&number| number);
    let result = CountResult { reports: answer.unwrap_or(0), refusal: answer.err().unwrap_or(0) };
    let set = library_codes(codes);
    assert_eq!(sys::report_count(set, *plan), result, "{plan:?}, {codes:?}");
    let said = plan.report_count(set).map_err(Refusal::number);
    assert_eq!(said, answer, "{plan:?}, {codes:?}");
    answer
}

fn write_report(
    random: &Random,
    (codes, plan, reports): (&Codes, &Plan, &Reports),
    k: u32,
    bytes: usize,
) -> Result<(), u8> {
    let set = library_codes(codes);
    let before = random.bytes(bytes + 8);
    let mut expected = before.clone();
    let answer = paper::write_report(reports, k, &mut expected[..bytes]);
    let mut output = before.clone();
    let refusal = sys::write_report(set, *plan, k, &mut output[..bytes]);
    assert_eq!((refusal, &output), (answer.err().unwrap_or(0), &expected), "{k} of {plan:?}");
    let mut output = before.clone();
    let said = plan.write_report(set, k, &mut output[..bytes]);
    assert_eq!((said.map_err(Refusal::number), &output), (answer, &expected), "{k} of {plan:?}");
    answer
}

#[test]
fn plans_are_as_on_paper() {
    let random = &Random::new(3);
    let (mut counts, mut writes) = (Tally::default(), Tally::default());
    for _ in 0..PLANS {
        let codes = codes::codes(random);
        let plan = make::plan(random, &codes);
        let reports = paper::reports(&codes, &plan);
        let answer = report_count(&codes, &plan, &reports);
        counts.add(answer);
        let count = answer.unwrap_or(0);
        for _ in 0..REPORTS {
            let any = 1 + random.below(count.max(1));
            let edges = [0, 1, count.wrapping_sub(1), count, count + 1, random.u32(), u32::MAX];
            let k = random.pick(&[any, random.pick(&edges)]);
            let bytes = random.pick(&[0, 15, 16, 16, 16, 17, 17, random.index(40)]);
            writes.add(write_report(random, (&codes, &plan, &reports), k, bytes));
        }
    }
    counts.finish("report_count", &[12]);
    writes.finish("write_report", &[12, 13, 14]);
}

/// Every report of some plans, each shape of one: one segment, several, as many as there may be, a
/// rest of 1, no rest, period 1.
#[test]
fn whole_plans_are_as_on_paper() {
    let random = &Random::new(4);
    let lengths = [1, 2, 399, 400, 401, 65_534, 65_535, 65_536, 70_000, 131_070, 1_048_560];
    let mut shapes = lengths.map(|length| (65_535, length)).to_vec();
    shapes.extend((1..=16).map(|length| (1, length)));
    for size in [2, 3, 160, 399, 400, 401, 2_401, 15_983, 65_534] {
        let lengths = [1, size - 1, size, size + 1, 2 * size, 16 * size - 1, 16 * size];
        shapes.extend(lengths.map(|length| (size, length)));
    }
    for (segment_size, length) in shapes {
        for period in [1, 160, 400, 2_400, 65_534, 65_535] {
            let codes = codes::some_codes(random);
            let code = u32::from(codes::few(random, &codes, 1)[0]);
            let any = make::plan(random, &codes);
            let plan = Plan { code, volume: any.volume % 64, ..any };
            let plan = Plan { payload_type: 101, length, period, segment_size, ..plan };
            let reports = paper::reports(&codes, &plan).unwrap();
            let codes = library_codes(&codes);
            let packets = plan.packets(codes).unwrap();
            assert_eq!(packets.len(), reports.len());
            for (packet, report) in packets.zip(reports) {
                assert_eq!(Report::read(codes, &packet), Ok(report));
            }
        }
    }
}
