//! Conformance monitor: a register of plant, intervals and operator calls in, report records out.
//!
//! Fields are little-endian; power is in kW, ramp rates in kW per minute, triggers in hundredths of a kW.
//!
//! - [`register`]: register bytes to a [`Plant`], refusals 1 to 7, 30 and 37, visits
//! - [`line`]: one 40-byte line, readable or not, and a float as whole kW
//! - [`marks`]: rate of change, triggers, errors, the mark of a unit, the pass that marks an aggregate
//! - [`monitor`]: the state; load, interval, declare, reinstate, look, reason, target; the report
//!
//! Apart from the monitor:
//!
//! - [`response`]: one day of wholesale demand response, energy in Wh and errors in W, without state; refusals 31 and 32
//! - [`ledger`]: its days over the year, the declaration by three instances, lists of its calls; refusals 33 to 35
//!
//! Around them: [`frames`] reads lists of calls from bytes, for [`replay`] and [`ledger`]; [`program`] and [`replay`] print what
//! the calls answer, [`passes`] what the pass over an aggregate's members returns; [`random_calls`], [`random_pairs`],
//! [`random_passes`], [`random_days`], [`random_ledgers`] and [`bench_input`] make input, [`folders`] writes it for many seeds.

pub mod bench_input;
pub mod folders;
pub mod frames;
pub mod ledger;
pub mod line;
pub mod marks;
pub mod monitor;
pub mod passes;
pub mod program;
pub mod random_calls;
mod random_chains;
pub mod random_days;
pub mod random_ledgers;
pub mod random_pairs;
pub mod random_passes;
pub mod refusal;
pub mod register;
pub mod replay;
pub mod response;

pub use line::Kind;
pub use marks::{unit_mark, Mark};
pub use monitor::{Look, Monitor, Reason, Target, RECORD};
pub use refusal::Refusal;
pub use register::Plant;
