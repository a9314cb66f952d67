//! The plan's two calls against the formulas by division: on both sides of every border that a
//! quotient has, and at random. The formulas themselves are held to the list of a plan's reports.

use crate::both::library_codes;
use crate::paper::codes::Codes;
use crate::paper::plan as list;
use crate::paper::plan_by_division::{self as paper, reports_of, segments};
use crate::random::Random;
use crate::tally::Tally;
use twimbor::Plan;
use twimbor::sys::{self, CountResult};

pub const INPUTS: usize = PLANS * (1 + REPORTS);
const PLANS: usize = 1_000_000;
const REPORTS: usize = 2;

/// The library's two calls and the formulas, with one set of codes.
struct Comparison {
    random: Random,
    codes: Codes,
    set: twimbor::Codes,
    counts: Tally,
    writes: Tally,
}

impl Comparison {
    fn new(seed: u64) -> Comparison {
        let codes = Codes::of((0..=15).chain([66, 70]));
        let (counts, writes) = (Tally::default(), Tally::default());
        Comparison { random: Random::new(seed), codes, set: library_codes(&codes), counts, writes }
    }

    /// A plan of these numbers. Sequence numbers and timestamps wrap in some.
    fn plan(&self, length: u32, period: u32, segment_size: u32) -> Plan {
        let random = &self.random;
        Plan {
            payload_type: random.below(128),
            ssrc: random.u32(),
            sequence: random.pick(&[0, 65_535, random.u16()]),
            start: random.pick(&[0, 0xFFFF_FFF0, random.u32()]),
            code: random.pick(&[0, 5, 15, 66, 70]),
            volume: random.below(64),
            length,
            period,
            segment_size,
        }
    }

    /// Compares the number of reports, which is 0 if the plan is refused.
    fn count(&mut self, plan: &Plan) -> u32 {
        let answer = paper::report_count(&self.codes, plan);
        let result =
            CountResult { reports: answer.unwrap_or(0), refusal: answer.err().unwrap_or(0) };
        assert_eq!(sys::report_count(self.set, *plan), result, "{plan:?}");
        self.counts.add(answer);
        result.reports
    }

    /// Compares report k, written into the first bytes of a larger output.
    fn write(&mut self, plan: &Plan, k: u32) {
        let bytes = self.random.pick(&[16, 16, 16, 16, 16, 16, 15, 17]);
        let mut expected = [self.random.u8(); 24];
        let mut output = expected;
        let answer = paper::write_report(&self.codes, plan, k, &mut expected[..bytes]);
        let refusal = sys::write_report(self.set, *plan, k, &mut output[..bytes]);
        assert_eq!((refusal, output), (answer.err().unwrap_or(0), expected), "{k} of {plan:?}");
        self.writes.add(answer);
    }

    fn finish(self, inputs: &str) {
        self.counts.finish(&format!("report_count, {inputs}"), &[12]);
        self.writes.finish(&format!("write_report, {inputs}"), &[12, 13, 14]);
    }
}

/// Periods and segment sizes: powers of two and one off, from 0 and up to 65,537, which are outside
/// the range; one less than the largest; and some that senders use.
fn numbers() -> Vec<u32> {
    let powers = (0..=16).flat_map(|bits| [(1 << bits) - 1, 1 << bits, (1 << bits) + 1]);
    rising(powers.chain([160, 400, 2_400, 15_983, 65_534]))
}

fn rising(numbers: impl Iterator<Item = u32>) -> Vec<u32> {
    let mut numbers = Vec::from_iter(numbers);
    numbers.sort_unstable();
    numbers.dedup();
    numbers
}

/// Lengths: each multiple of the segment size; after it the first multiple of the period, and the
/// last one within a segment; and one off.
fn lengths(period: u32, size: u32) -> Vec<u32> {
    let last = size.saturating_sub(1) / period.max(1) * period;
    let after = |times: u32| [0, period, last].map(|units| times * size + units);
    let one_off = |length: u32| [length.saturating_sub(1), length, length + 1];
    let lengths = (0..=16).flat_map(after).flat_map(one_off);
    rising(lengths.filter(|&length| length <= 16 * size + 1))
}

/// Report numbers of a plan in range: the first two of each segment; its last four, which are the
/// last before its end, if there is one, and the three at its end; those outside; and such as look
/// like the segment's if a number of periods is counted in 32 bits.
fn report_numbers(plan: &Plan, count: u32) -> Vec<u32> {
    let ((full, rest), each) = (segments(plan), reports_of(plan.segment_size, plan.period));
    let wrap = (1_u64 << 32).div_ceil(u64::from(plan.period)) as u32;
    let mut numbers = vec![0, count + 1, u32::MAX];
    for segment in 0..=full {
        let before = segment * each;
        let end = before + if segment == full { reports_of(rest, plan.period) } else { each };
        numbers.extend([before + 1, before + 2, end - 3, end - 2, end - 1, end]);
        numbers.extend([before + wrap + 1, before + wrap + 3]);
    }
    numbers
}

#[test]
fn borders_are_as_by_division() {
    let mut both = Comparison::new(41);
    let with_periods = |size| numbers().into_iter().map(move |period| (size, period));
    for (size, period) in numbers().into_iter().flat_map(with_periods) {
        for length in lengths(period, size) {
            let plan = both.plan(length, period, size);
            let count = both.count(&plan);
            let numbers = if count == 0 { vec![1] } else { report_numbers(&plan, count) };
            numbers.into_iter().for_each(|k| both.write(&plan, k));
        }
    }
    both.finish("borders");
}

/// A plan of any shape: sizes and periods of any number of bits, quotients near powers of two, few
/// segments and 16, any rest, and one near a multiple of the period. Now and then out of range.
fn any_plan(both: &Comparison) -> Plan {
    let random = &both.random;
    let any_bits = || (1 + random.below(1 << random.below(17))).min(65_535);
    let one_off = |number: u32| (number + random.below(3)).saturating_sub(1);
    let size = random.pick(&[65_535, 15_983, any_bits(), any_bits(), 1 + random.below(65_535)]);
    let near_power = one_off(1 << random.below(16)).max(1);
    let period = match random.below(4) {
        0 => any_bits(),
        1 => one_off(size / near_power),
        2 => 1 + random.below(size),
        _ => random.pick(&[1, 2, 160, 400, 2_400, 65_534, 65_535]),
    };
    let period = if random.one_in(64) { period } else { period.clamp(1, 65_535) };
    let near_multiple = one_off(period * random.below(size / period.max(1) + 1));
    let rest = random.pick(&[1, size, 1 + random.below(size), near_multiple]).clamp(1, size);
    let full = random.pick(&[0, 1, 2, 15, random.below(16)]);
    let length = full * size + rest;
    let length = if random.one_in(64) { random.pick(&[0, 16 * size + 1]) } else { length };
    both.plan(length, period, size)
}

#[test]
fn any_plans_are_as_by_division() {
    let mut both = Comparison::new(42);
    for _ in 0..PLANS {
        let plan = any_plan(&both);
        let count = both.count(&plan);
        for _ in 0..REPORTS {
            let random = &both.random;
            let k = match random.below(4) {
                0 if count > 0 => random.pick(&report_numbers(&plan, count)),
                1 => random.pick(&[1, count, random.u32()]),
                _ => 1 + random.below(count.max(1)),
            };
            both.write(&plan, k);
        }
    }
    both.finish("any plans");
}

/// All reports of a plan, and some outside: the formulas against the list, the library against the
/// formulas. Answers how many there are.
fn all_reports(both: &mut Comparison, plan: &Plan) -> u32 {
    let reports = list::reports(&both.codes, plan);
    let count = both.count(plan);
    let counted = reports.as_ref().map(|reports| reports.len() as u32).map_err(|&number| number);
    assert_eq!(paper::report_count(&both.codes, plan), counted, "{plan:?}");
    for k in (0..=count + 1).chain([u32::MAX]) {
        let (mut expected, mut output) = ([0; 16], [0; 16]);
        let answer = list::write_report(&reports, k, &mut expected);
        let said = paper::write_report(&both.codes, plan, k, &mut output);
        assert_eq!((said, output), (answer, expected), "{k} of {plan:?}");
        both.write(plan, k);
    }
    count
}

/// Every length, period and segment size up to a few units; the largest quotients; and plans of any
/// shape that have few enough reports to list.
#[test]
fn division_is_as_on_paper() {
    let (mut both, mut reports) = (Comparison::new(43), 0);
    for (size, period) in (1..=8).flat_map(|size| (1..=9).map(move |period| (size, period))) {
        for length in 1..=16 * size {
            let plan = both.plan(length, period, size);
            reports += all_reports(&mut both, &plan);
        }
    }
    for (length, period) in [(65_536, 1), (65_535, 2)] {
        let plan = both.plan(length, period, 65_535);
        reports += all_reports(&mut both, &plan);
    }
    while reports < 500_000 {
        let plan = any_plan(&both);
        if plan.length / plan.period.max(1) < 5_000 {
            reports += all_reports(&mut both, &plan);
        }
    }
    both.finish("all reports");
}
