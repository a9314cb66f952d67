//! Documents 01 and 02 as a program, the plainest that says them. It has a table and a set of codes
//! of its own, and shares the library's structs for reports, plans, events and cursors and nothing
//! else. Every answer is a `Result` with their number of the refusal.

pub mod blocks;
pub mod capture;
pub mod codes;
pub mod events;
pub mod packet;
pub mod plan;
pub mod plan_by_division;
pub mod redundant;
pub mod table;
