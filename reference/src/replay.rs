//! Runs any list of calls from bytes and prints one answer a call.
//!
//! The calls of a list of [`frames`](crate::frames), by tag: 1 load (register), 2 interval (u32 length of the report buffer,
//! then the interval buffer), 3 declare (u32 point, i32 level), 4 reinstate (u32 point), 5 look (u32 point), 6 reason (u32
//! point), 7 target (u32 point).

use crate::frames::{self, word};
use crate::monitor::{Look, Monitor, Target};
use crate::program::{interval_number, print_report};
use crate::refusal::Refusal;
use std::io::{self, Write};

pub const LOAD: u32 = 1;
pub const INTERVAL: u32 = 2;
pub const DECLARE: u32 = 3;
pub const REINSTATE: u32 = 4;
pub const LOOK: u32 = 5;
pub const REASON: u32 = 6;
pub const TARGET: u32 = 7;

pub const MAX_REPORT: usize = 4_096;

/// One call of a list.
#[derive(Clone, Copy, PartialEq, Eq, Debug)]
pub enum Call<'a> {
    Load(&'a [u8]),
    Interval { report: usize, buffer: &'a [u8] },
    Declare { point: u32, level: i32 },
    Reinstate { point: u32 },
    Look { point: u32 },
    Reason { point: u32 },
    Target { point: u32 },
}

/// The calls of a list.
pub type Calls<'a> = frames::Calls<'a, Call<'a>>;

impl<'a> Calls<'a> {
    pub fn new(bytes: &'a [u8]) -> Self {
        Self::of(bytes, read_call)
    }
}

fn only_word(bytes: &[u8]) -> Option<u32> {
    word(bytes).filter(|(_, rest)| rest.is_empty()).map(|(value, _)| value)
}

fn read_call(tag: u32, payload: &[u8]) -> Option<Call<'_>> {
    Some(match tag {
        LOAD => Call::Load(payload),
        INTERVAL => {
            let (report, buffer) = word(payload)?;
            let report = usize::try_from(report).ok().filter(|&report| report <= MAX_REPORT)?;
            Call::Interval { report, buffer }
        }
        DECLARE => {
            let (point, rest) = word(payload)?;
            Call::Declare { point, level: only_word(rest)? as i32 }
        }
        REINSTATE => Call::Reinstate { point: only_word(payload)? },
        LOOK => Call::Look { point: only_word(payload)? },
        REASON => Call::Reason { point: only_word(payload)? },
        TARGET => Call::Target { point: only_word(payload)? },
        _ => return None,
    })
}

/// Runs the list on a monitor without a register.
pub fn run(bytes: &[u8], out: &mut impl Write) -> io::Result<()> {
    let mut monitor = Monitor::new();
    let mut report = [0; MAX_REPORT];
    for call in Calls::new(bytes) {
        match call {
            Ok(Call::Load(register)) => match monitor.load(register) {
                Ok(visits) => writeln!(out, "load accepted {visits}")?,
                Err(refusal) => writeln!(out, "load {refusal}")?,
            },
            Ok(Call::Interval { report: length, buffer }) => {
                let report = &mut report[..length];
                print_plain(out, "interval", monitor.interval(buffer, report), |out| {
                    print_report(out, interval_number(buffer), report)
                })?;
            }
            Ok(Call::Declare { point, level }) => {
                print_plain(out, "declare", monitor.declare(point, level), |_| Ok(()))?;
            }
            Ok(Call::Reinstate { point }) => {
                print_plain(out, "reinstate", monitor.reinstate(point), |_| Ok(()))?;
            }
            Ok(Call::Look { point }) => match monitor.look(point) {
                Ok(Look { status, small, large, level }) => {
                    writeln!(out, "look accepted {status} {small} {large} {level}")?;
                }
                Err(refusal) => writeln!(out, "look {refusal}")?,
            },
            Ok(Call::Reason { point }) => match monitor.reason(point) {
                Ok(reason) => writeln!(out, "reason accepted {reason}")?,
                Err(refusal) => writeln!(out, "reason {refusal}")?,
            },
            Ok(Call::Target { point }) => match monitor.target(point) {
                Ok(Target { target, raise, lower, kept }) => {
                    writeln!(out, "target accepted {target} {raise} {lower} {}", u8::from(kept))?;
                }
                Err(refusal) => writeln!(out, "target {refusal}")?,
            },
            Err(place) => writeln!(out, "script error at byte {place}")?,
        }
    }
    Ok(())
}

fn print_plain<W: Write>(
    out: &mut W,
    name: &str,
    answer: Result<(), Refusal>,
    then: impl FnOnce(&mut W) -> io::Result<()>,
) -> io::Result<()> {
    match answer {
        Ok(()) => {
            writeln!(out, "{name} accepted")?;
            then(out)
        }
        Err(refusal) => writeln!(out, "{name} {refusal}"),
    }
}

/// Calls as bytes, one after the other.
#[derive(Clone, Debug, Default)]
pub struct Script {
    bytes: Vec<u8>,
}

impl Script {
    pub fn new() -> Self {
        Self::default()
    }

    /// Any tag and payload, readable or not.
    pub fn call(&mut self, tag: u32, payload: &[u8]) {
        self.bytes.extend(tag.to_le_bytes());
        self.bytes.extend((payload.len() as u32).to_le_bytes());
        self.bytes.extend(payload);
    }

    pub fn add(&mut self, call: Call) {
        match call {
            Call::Load(register) => self.load(register),
            Call::Interval { report, buffer } => self.interval(report as u32, buffer),
            Call::Declare { point, level } => self.declare(point, level),
            Call::Reinstate { point } => self.reinstate(point),
            Call::Look { point } => self.look(point),
            Call::Reason { point } => self.reason(point),
            Call::Target { point } => self.target(point),
        }
    }

    pub fn load(&mut self, register: &[u8]) {
        self.call(LOAD, register);
    }

    pub fn interval(&mut self, report: u32, buffer: &[u8]) {
        self.call(INTERVAL, &[&report.to_le_bytes()[..], buffer].concat());
    }

    pub fn declare(&mut self, point: u32, level: i32) {
        self.call(DECLARE, &[point.to_le_bytes(), level.to_le_bytes()].concat());
    }

    pub fn reinstate(&mut self, point: u32) {
        self.call(REINSTATE, &point.to_le_bytes());
    }

    pub fn look(&mut self, point: u32) {
        self.call(LOOK, &point.to_le_bytes());
    }

    pub fn reason(&mut self, point: u32) {
        self.call(REASON, &point.to_le_bytes());
    }

    pub fn target(&mut self, point: u32) {
        self.call(TARGET, &point.to_le_bytes());
    }

    /// Bytes so far.
    pub fn len(&self) -> usize {
        self.bytes.len()
    }

    pub fn is_empty(&self) -> bool {
        self.bytes.is_empty()
    }

    /// Bytes that are no whole call.
    pub fn raw(&mut self, bytes: &[u8]) {
        self.bytes.extend(bytes);
    }

    pub fn into_bytes(self) -> Vec<u8> {
        self.bytes
    }
}

#[cfg(test)]
mod tests {
    use super::*;

    fn text(bytes: &[u8]) -> String {
        let mut out = Vec::new();
        run(bytes, &mut out).unwrap();
        String::from_utf8(out).unwrap()
    }

    #[test]
    fn before_a_register() {
        let mut script = Script::new();
        script.interval(7, &[1, 2]);
        script.declare(0, i32::MIN);
        script.reinstate(0);
        script.look(0);
        script.reason(0);
        script.target(0);
        script.load(&[]);
        assert_eq!(
            text(&script.into_bytes()),
            "interval refused 20\ndeclare refused 20\nreinstate refused 20\nlook refused 20\nreason refused 20\n\
             target refused 20\nload refused 1\n"
        );
        assert_eq!(text(&[]), "");
    }

    #[test]
    fn script_errors() {
        let mut good = Script::new();
        good.look(1);
        let good = good.into_bytes();
        let after = |tail: &[u8]| text(&[&good[..], tail].concat());
        let error = "look refused 20\nscript error at byte 12\n";
        assert_eq!(after(&[]), "look refused 20\n");
        assert_eq!(after(&[5]), error);
        assert_eq!(after(&[5, 0, 0, 0, 4, 0, 0]), error);
        assert_eq!(after(&[5, 0, 0, 0, 4, 0, 0, 0, 1, 0, 0]), error);
        let call = |tag: u32, payload: &[u8]| {
            let mut script = Script::new();
            script.call(tag, payload);
            script.look(1);
            script.into_bytes()
        };
        for (tag, length) in [
            (0, 0),
            (8, 0),
            (8, 4),
            (8, 8),
            (256, 4),
            (3, 4),
            (3, 9),
            (4, 3),
            (4, 8),
            (5, 0),
            (5, 5),
            (6, 0),
            (6, 3),
            (6, 5),
            (6, 8),
            (7, 0),
            (7, 3),
            (7, 5),
            (7, 8),
            (1, 8_193),
            (2, 8_193),
            (2, 3),
            (2, 0),
        ] {
            assert_eq!(after(&call(tag, &vec![0; length])), error, "{tag} {length}");
        }
        assert_eq!(after(&call(2, &4_097u32.to_le_bytes())), error);
        assert!(after(&call(2, &4_096u32.to_le_bytes())).ends_with("interval refused 20\nlook refused 20\n"));
        assert!(after(&call(6, &[0; 4])).ends_with("reason refused 20\nlook refused 20\n"));
        assert!(after(&call(7, &[0; 4])).ends_with("target refused 20\nlook refused 20\n"));
        assert!(after(&call(1, &[0; 8_192])).ends_with("load refused 2\nlook refused 20\n"));
    }
}
