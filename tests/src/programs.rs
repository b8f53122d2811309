//! What the programs `speaker` and `listener` do, by the twin.

use crate::plant::Plant;
use crate::receiver::Receiver;
use crate::sender::{Sender, chain};
use crate::wire::*;

#[derive(Clone, Debug, Default, PartialEq, Eq)]
pub struct Outcome {
    pub stdout: Vec<u8>,
    pub stderr: String,
    pub status: i32,
}

// The last line of a program that ends with status 1; docs/FORMATS.md does not have these, nor `why` below.
const NO_SETTINGS: &str = "Error: \"no settings\"\n";
const NOT_TO_ITS_END: &str = "Error: \"the input was not read to its end\"\n";
const NOT_PLAYED: &str = "Error: \"the script was not played\"\n";

pub const CLOCK: u8 = 0;
pub const AIR: u8 = 1;

pub fn frame(source: u8, bytes: &[u8]) -> Vec<u8> {
    let mut out = vec![source];
    out.extend((bytes.len() as u16).to_be_bytes());
    out.extend(bytes);
    out
}

/// The next frame, and what stands behind it; none if it is cut or has an unknown source.
pub fn read_frame(input: &[u8]) -> Option<(u8, &[u8], &[u8])> {
    let source = *input.first()?;
    let n = u16::from_be_bytes(input.get(1..3)?.try_into().unwrap()) as usize;
    let bytes = input.get(3..3 + n)?;
    (source <= 1).then_some((source, bytes, &input[3 + n..]))
}

pub fn listen(input: &[u8], plant: Plant) -> Outcome {
    let mut out = Outcome::default();
    let (settings, mut rest) = input.split_at(input.len().min(47));
    let mut receiver = match Receiver::new(settings, plant) {
        Ok(receiver) => receiver,
        Err(refusal) => {
            return Outcome {
                stderr: format!("settings: refused {refusal}\n{NO_SETTINGS}"),
                status: 1,
                ..out
            };
        }
    };
    let mut k = if plant == Plant::FramesFromZero { 0 } else { 1 };
    while !rest.is_empty() {
        let (refusal, delivered) = match read_frame(rest) {
            None if plant == Plant::SourceGoesOn && rest[0] > 1 => {
                rest = &rest[1..];
                continue;
            }
            None => {
                if plant == Plant::CutStandsNot {
                    out.stdout.clear();
                }
                let why = if rest.len() >= 3 && rest[0] > 1 {
                    "an unknown source"
                } else {
                    "a frame that is cut"
                };
                out.stderr += &format!("frame {k}: refused 1: {why}\n{NOT_TO_ITS_END}");
                return Outcome { status: 1, ..out };
            }
            Some((source, bytes, behind)) => {
                rest = behind;
                if source == CLOCK {
                    (receiver.clock(bytes), vec![])
                } else {
                    receiver.air(bytes)
                }
            }
        };
        for d in delivered {
            out.stdout.extend(d.write());
        }
        if refusal != 0 {
            out.stderr += &format!("frame {k}: refused {refusal}\n");
        }
        k += 1;
    }
    out
}

enum Deed<'a> {
    Time(u64),
    Say(std::borrow::Cow<'a, [u8]>),
}

struct Script<'a> {
    settings: [u64; 4],
    drawn: Key,
    deeds: Vec<Deed<'a>>,
}

fn words(line: &[u8]) -> Vec<&[u8]> {
    line.split(|&b| b == b' ').filter(|w| !w.is_empty()).collect()
}

fn number(word: &[u8], plant: Plant) -> Option<u64> {
    if !word.iter().all(u8::is_ascii_digit) {
        return None;
    }
    if plant == Plant::NumberWraps {
        return Some(
            word.iter()
                .fold(0, |n: u64, b| n.wrapping_mul(10).wrapping_add((b - b'0') as u64)),
        );
    }
    std::str::from_utf8(word).ok()?.parse().ok()
}

fn hex(word: &[u8]) -> Option<Vec<u8>> {
    let digit = |b: &u8| (*b as char).to_digit(16).map(|d| d as u8);
    let digits: Vec<u8> = word.iter().map(digit).collect::<Option<_>>()?;
    digits
        .len()
        .is_multiple_of(2)
        .then(|| digits.chunks(2).map(|d| d[0] << 4 | d[1]).collect())
}

/// A script that has no fault, or its first fault's line and number.
fn read_script(text: &[u8], plant: Plant) -> Result<Script<'_>, (usize, u8)> {
    let mut script = Script {
        settings: [0; 4],
        drawn: [0; 32],
        deeds: vec![],
    };
    let (mut stage, mut time, mut last) = (0, 0, 0);
    for (at, line) in text.split(|&b| b == b'\n').enumerate() {
        let fault = (at + 1, 1);
        last = at + 1;
        let words = words(line);
        if words.is_empty() || words[0][0] == b'#' {
            continue;
        }
        let fields = &words[1..];
        match (stage, words[0]) {
            (0, b"settings") => {
                if fields.len() != 4 {
                    return Err(fault);
                }
                for (to, word) in script.settings.iter_mut().zip(fields) {
                    *to = number(word, plant).ok_or(fault)?;
                }
                let [s, d, e, n] = script.settings;
                if !in_range(s, d, e, n, plant) {
                    return Err((at + 1, 11));
                }
                stage = 1;
            }
            (1, b"drawn") => {
                let [word] = fields else { return Err(fault) };
                script.drawn = hex(word).ok_or(fault)?.try_into().map_err(|_| fault)?;
                stage = 2;
            }
            (2, b"time") => {
                let [word] = fields else { return Err(fault) };
                let tick = number(word, plant).ok_or(fault)?;
                if tick < time {
                    return Err((at + 1, 10));
                }
                time = tick;
                script.deeds.push(Deed::Time(tick));
            }
            (2, b"say") => {
                let start = line.iter().position(|&b| b != b' ').unwrap() + 4;
                let said = line.get(start..).unwrap_or_default();
                if said.len() > 200 {
                    return Err(fault);
                }
                script.deeds.push(Deed::Say(said.into()));
            }
            (2, b"sayhex") => {
                let [word] = fields else { return Err(fault) };
                let said = hex(word).ok_or(fault)?;
                if said.len() > 200 {
                    return Err(fault);
                }
                script.deeds.push(Deed::Say(said.into()));
            }
            (2, b"end") if fields.is_empty() => stage = 3,
            (0 | 1, b"end") if fields.is_empty() && plant == Plant::EndAnywhere => stage = 4,
            _ => return Err(fault),
        }
    }
    if stage == 3 {
        return Ok(script);
    }
    Err((if plant == Plant::EndLineBefore { last - 1 } else { last }, 1))
}

/// What goes on the air, with the real time.
pub struct Sent {
    pub time: u64,
    pub bytes: Vec<u8>,
}

pub fn speak(date: u64, text: &[u8], plant: Plant) -> (Outcome, Vec<Sent>) {
    let mut out = Outcome::default();
    let mut air = vec![];
    let script = match read_script(text, plant) {
        Ok(script) => script,
        Err((line, refusal)) => {
            return (
                Outcome {
                    stderr: format!("line {line}: refused {refusal}\n{NOT_PLAYED}"),
                    status: 1,
                    ..out
                },
                air,
            );
        }
    };
    let [s, d, e, n] = script.settings;
    let keys = chain(n, script.drawn);
    let mut sender = Sender::new(
        Settings {
            date,
            s,
            d,
            e,
            n,
            key0: keys[0],
        },
        keys,
        plant,
    );
    out.stdout = sender.settings.write();
    let (mut k, mut time) = (if plant == Plant::DeedsFromZero { 0 } else { 1 }, 0);
    for deed in &script.deeds {
        let sent = match deed {
            Deed::Time(tick) => {
                time = *tick;
                sender.tick(*tick)
            }
            Deed::Say(said) => sender.say(said).map(Some),
        };
        match sent {
            Ok(Some(bytes)) => {
                out.stdout.extend(frame(AIR, &bytes));
                air.push(Sent { time, bytes });
            }
            Ok(None) => {}
            Err(refusal) => out.stderr += &format!("deed {k}: refused {refusal}\n"),
        }
        k += 1;
    }
    (out, air)
}
