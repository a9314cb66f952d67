//! A plan's number of reports, and each report from its number alone, by division: no list is made.

use super::codes::Codes;
use super::packet;
use super::plan::{in_range, report};
use twimbor::{Plan, Report};

/// "(L divided by the period, rounded up) + 2", L being at least 1.
pub fn reports_of(units: u32, period: u32) -> u32 {
    (units - 1) / period + 1 + 2
}

/// How many segments come before the last, and the units of the last.
pub fn segments(plan: &Plan) -> (u32, u32) {
    ((plan.length - 1) / plan.segment_size, (plan.length - 1) % plan.segment_size + 1)
}

pub fn report_count(codes: &Codes, plan: &Plan) -> Result<u32, u8> {
    in_range(codes, plan)?;
    let (full, rest) = segments(plan);
    Ok(full * reports_of(plan.segment_size, plan.period) + reports_of(rest, plan.period))
}

/// Report k. The last segment has no more reports than each before it, so one quotient tells the
/// segment of every k.
fn report_at(codes: &Codes, plan: &Plan, k: u32) -> Result<Report, u8> {
    if !(1..=report_count(codes, plan)?).contains(&k) {
        return Err(13);
    }
    let (full, rest) = segments(plan);
    let each = reports_of(plan.segment_size, plan.period);
    let (segment, earlier) = ((k - 1) / each, (k - 1) % each);
    let units = if segment == full { rest } else { plan.segment_size };
    let duration = units.min((earlier + 1) * plan.period);
    let ended = segment == full && earlier + 2 >= reports_of(units, plan.period);
    Ok(report(plan, k as usize - 1, segment * plan.segment_size, duration, ended))
}

pub fn write_report(codes: &Codes, plan: &Plan, k: u32, output: &mut [u8]) -> Result<(), u8> {
    let report = report_at(codes, plan, k)?;
    output.get_mut(..16).ok_or(14)?.copy_from_slice(&packet::bytes(&report));
    Ok(())
}
