//! The library compared with documents 01 and 02, written again from their text alone (`paper`), on
//! random inputs, in `plan_borders` on the borders of a plan's quotients, in `probes` on every
//! place of every number held, and in `codes` on every pair of codes: each answer, table field,
//! place, and lent byte, record and entry, also under a refusal.

mod blocks;
mod both;
mod captures;
mod codes;
mod lists;
mod make;
mod numbers;
mod order;
mod packets;
mod paper;
mod plan_borders;
mod plans;
mod probes;
mod random;
mod redundant;
mod redundant_runs;
mod runs;
mod tables;
mod tally;

const _: () = assert!(
    packets::INPUTS
        + plans::INPUTS
        + plan_borders::INPUTS
        + tables::INPUTS
        + lists::INPUTS
        + blocks::INPUTS
        + redundant::INPUTS
        + codes::INPUTS
        >= 2_000_000,
    "at least two million inputs are compared"
);
