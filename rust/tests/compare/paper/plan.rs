//! "The sender's plan for one event".

use super::codes::Codes;
use super::packet;
use twimbor::{Plan, Report};

/// Refusal 12: a number is outside its range.
pub fn in_range(codes: &Codes, plan: &Plan) -> Result<(), u8> {
    if plan.payload_type > 127
        || !codes.contains(plan.code)
        || plan.volume > 63
        || !(1..=65_535).contains(&plan.period)
        || !(1..=65_535).contains(&plan.segment_size)
        || !(1..=16 * plan.segment_size).contains(&plan.length)
    {
        return Err(12);
    }
    Ok(())
}

/// The report after so many others, of a segment that starts so many units after the event.
pub fn report(plan: &Plan, earlier: usize, before: u32, duration: u32, ended: bool) -> Report {
    Report {
        marker: earlier == 0,
        payload_type: plan.payload_type,
        sequence: ((u64::from(plan.sequence) + earlier as u64) % 65_536) as u16,
        timestamp: ((u64::from(plan.start) + u64::from(before)) % (1 << 32)) as u32,
        ssrc: plan.ssrc,
        code: plan.code,
        ended,
        volume: plan.volume,
        duration,
    }
}

/// All reports of a plan, in order.
pub fn reports(codes: &Codes, plan: &Plan) -> Result<Vec<Report>, u8> {
    in_range(codes, plan)?;
    let mut reports = Vec::new();
    let mut before = 0;
    while before < plan.length {
        let units = (plan.length - before).min(plan.segment_size);
        let is_last = before + units == plan.length;
        let multiples = (1..).map(|times| times * plan.period);
        let interim = multiples.take_while(|&duration| duration < units).map(|d| (d, false));
        let at_end = [(units, false), (units, is_last), (units, is_last)];
        for (duration, ended) in interim.chain(at_end) {
            reports.push(report(plan, reports.len(), before, duration, ended));
        }
        before += units;
    }
    Ok(reports)
}

/// Writes report k of a plan that has these reports.
pub fn write_report(
    reports: &Result<Vec<Report>, u8>,
    k: u32,
    output: &mut [u8],
) -> Result<(), u8> {
    let reports = reports.as_ref().map_err(|&number| number)?;
    if k == 0 || k as usize > reports.len() {
        return Err(13);
    }
    if output.len() < 16 {
        return Err(14);
    }
    output[..16].copy_from_slice(&packet::bytes(&reports[k as usize - 1]));
    Ok(())
}
