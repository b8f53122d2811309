//! The parts of the comparison; each does one run.

use crate::inputs::{Run, odd_settings};
use crate::library::Library;
use crate::plant::Plant;
use crate::programs::*;
use crate::random::Random;
use crate::receiver::Receiver;
use crate::report::{Counts, Difference, hex};
use crate::scripts::script;
use crate::wire::*;
use std::io::{Read, Write};
use std::process::{Child, Command, Stdio};
use std::sync::mpsc::channel;
use std::time::Duration;

pub struct Context {
    /// A chain longer than any.
    pub chain: Vec<Key>,
    /// Where the programs are.
    pub bin: String,
    pub plant: Plant,
}

pub type Part = fn(&Context, Random, &mut Counts) -> Result<(), Difference>;

/// Name, number of runs at size 1, and what does one.
pub const PARTS: &[(&str, u64, Part)] = &[
    ("receiver", 100, receiver),
    ("listener", 10, listener),
    ("speaker", 10, speaker),
    ("both", 3, both),
];

pub fn receiver(c: &Context, mut r: Random, counts: &mut Counts) -> Result<(), Difference> {
    for _ in 0..6 {
        let bytes = odd_settings(&mut r);
        let fault = |what| Difference {
            what,
            input: bytes.clone(),
            program: "listener",
        };
        let expected = Receiver::new(&bytes, c.plant).err().unwrap_or(0);
        let (got, mut it) = Library::new(&bytes, r.next()).map_err(fault)?;
        counts.inputs += 1;
        counts.settings[expected as usize] += 1;
        // Once more, over memory that may be a receiver's by now.
        let again = it.renew(&bytes).map_err(fault)?;
        if (got, again) != (expected, expected) {
            let what = format!(
                "settings {}: the library says {got} and {again}, the twin {expected}",
                hex(&bytes)
            );
            return Err(fault(what));
        }
    }
    let inputs = match r.below(8) {
        0 => r.within(300, 600),
        _ => r.within(10, 150),
    };
    Run::new(r, &c.chain, c.plant, true, counts)?.play(inputs)
}

fn start(c: &Context, program: &str, args: &[String]) -> Result<Child, String> {
    let path = format!("{}/{program}", c.bin);
    let mut command = Command::new(&path);
    command.args(args).stdin(Stdio::piped());
    command.stdout(Stdio::piped()).stderr(Stdio::piped());
    command.spawn().map_err(|e| format!("{path} isn't run: {e}"))
}

fn run(c: &Context, program: &'static str, args: &[String], input: &[u8]) -> Result<Outcome, Difference> {
    let fault = |what: String| Difference {
        what,
        input: input.to_vec(),
        program,
    };
    let mut child = start(c, program, args).map_err(fault)?;
    let mut stdin = child.stdin.take().unwrap();
    let out = std::thread::scope(|scope| {
        // A program that refuses early doesn't read to the end.
        scope.spawn(move || stdin.write_all(input).is_ok());
        child.wait_with_output()
    });
    let out = out.map_err(|e| fault(format!("{program}: {e}")))?;
    let status = out
        .status
        .code()
        .ok_or_else(|| fault(format!("{program} was ended by a signal: {}", out.status)))?;
    Ok(Outcome {
        stdout: out.stdout,
        stderr: String::from_utf8_lossy(&out.stderr).into_owned(),
        status,
    })
}

fn compare(
    program: &'static str,
    args: &[String],
    got: &Outcome,
    expected: &Outcome,
    input: &[u8],
) -> Result<(), Difference> {
    if got == expected {
        return Ok(());
    }
    let at = got
        .stdout
        .iter()
        .zip(&expected.stdout)
        .take_while(|(a, b)| a == b)
        .count();
    let part = |o: &Outcome| hex(&o.stdout[at..o.stdout.len().min(at + 80)]);
    let lines = got
        .stderr
        .lines()
        .zip(expected.stderr.lines())
        .take_while(|(a, b)| a == b)
        .count();
    let line = |o: &Outcome| o.stderr.lines().nth(lines).unwrap_or("nothing").to_string();
    let what = format!(
        "{program} {}: status {}, expected {};\n  standard output has {} bytes, expected {}, the same up to byte {at}:\n    {}\n    {}\n  \
         standard error is the same for {lines} lines, then\n    {}\n    {}",
        args.join(" "),
        got.status,
        expected.status,
        got.stdout.len(),
        expected.stdout.len(),
        part(got),
        part(expected),
        line(got),
        line(expected)
    );
    Err(Difference {
        what,
        input: input.to_vec(),
        program,
    })
}

/// Where the settings and the frames of an input end.
fn ends(input: &[u8]) -> Vec<usize> {
    let mut ends = vec![47];
    let mut rest = input.get(47..).unwrap_or_default();
    while let Some((_, _, behind)) = read_frame(rest) {
        ends.push(input.len() - behind.len());
        rest = behind;
    }
    ends
}

fn count_heard(counts: &mut Counts, input: &[u8], heard: &Outcome) {
    counts.bytes += input.len() as u64;
    let mut refused = 0;
    for line in heard.stderr.lines() {
        let number = line.split("refused ").nth(1).and_then(|rest| rest.split(':').next());
        match number.and_then(|word| word.parse::<usize>().ok()) {
            Some(n) if line.starts_with("settings") => counts.settings[n] += 1,
            Some(n) => {
                counts.frames[n] += 1;
                refused += 1;
            }
            None => {}
        }
    }
    if !heard.stderr.starts_with("settings") {
        let frames = ends(input).len() as u64 - 1;
        counts.settings[0] += 1;
        counts.inputs += frames;
        counts.frames[0] += frames.saturating_sub(refused);
    }
    let mut rest = &heard.stdout[..];
    while rest.len() >= 5 {
        rest = &rest[5 + rest[4] as usize..];
        counts.delivered += 1;
    }
}

/// What a listener delivers of some frames is there before the next one comes.
fn flushed(c: &Context, r: &mut Random, counts: &mut Counts, input: &[u8]) -> Result<(), Difference> {
    let front = &input[..r.pick(&ends(input))];
    let expected = listen(front, c.plant).stdout;
    if expected.is_empty() {
        return Ok(());
    }
    let fault = |what: String| Difference {
        what,
        input: front.to_vec(),
        program: "listener",
    };
    let mut child = start(c, "listener", &[]).map_err(fault)?;
    let (mut stdin, mut stdout) = (child.stdin.take().unwrap(), child.stdout.take().unwrap());
    let mut stderr = child.stderr.take().unwrap();
    let (give, take) = channel();
    let length = expected.len();
    let reader = std::thread::spawn(move || {
        let mut got = vec![0; length];
        let read = stdout.read_exact(&mut got).is_ok();
        // Nobody waits any more if it took too long.
        let _ = give.send(if read { got } else { vec![] });
    });
    let drain = std::thread::spawn(move || std::io::copy(&mut stderr, &mut std::io::sink()).is_ok());
    let written = stdin.write_all(front).and_then(|()| stdin.flush());
    let got = take.recv_timeout(Duration::from_secs(20));
    drop(stdin);
    let ended = child.wait();
    let joined = reader.join().is_ok() & drain.join().is_ok();
    if written.is_err() || ended.is_err() || !joined || got.as_ref() != Ok(&expected) {
        return Err(fault(format!(
            "listener, input left open: {length} bytes should be there within 20 seconds"
        )));
    }
    counts.flushed += 1;
    Ok(())
}

pub fn listener(c: &Context, mut r: Random, counts: &mut Counts) -> Result<(), Difference> {
    let mut cut = Random::of(r.next(), 0, 0);
    let inputs = r.within(1, 200);
    let mut unused = Counts::default();
    let mut play = Run::new(r, &c.chain, c.plant, false, &mut unused)?;
    play.play(inputs)?;
    let mut input = std::mem::take(&mut play.log);
    let r = &mut cut;
    if r.once_in(8) {
        flushed(c, r, counts, &input)?;
    }
    let length = input.len() as u64;
    match r.below(12) {
        0 => input.truncate(r.below(48.min(length)) as usize),
        1..=3 => input.truncate(r.below(length) as usize),
        4 => input.truncate(r.within(45, 52.min(length)) as usize),
        5 => {
            let odd = odd_settings(r);
            let front = if odd.len() == 47 { 47 } else { 0 };
            input.splice(..front, odd);
        }
        // An unknown source, and all frames go on behind it.
        6..=7 => {
            let at = r.pick(&ends(&input));
            let source = r.pick(&[2, 3, 16, 255]);
            if r.once_in(2) && at < input.len() {
                input[at] = source;
            } else {
                input.insert(at, source);
            }
        }
        8 => {
            let at = r.below(length) as usize;
            input[at] ^= 1 << r.below(8);
        }
        9 => input.extend(frame(r.pick(&[CLOCK, AIR]), &[])),
        _ => {}
    }
    let expected = listen(&input, c.plant);
    count_heard(counts, &input, &expected);
    let got = run(c, "listener", &[], &input)?;
    compare("listener", &[], &got, &expected, &input)
}

fn count_script(counts: &mut Counts, script: &[u8], spoken: &Outcome, air: &[Sent]) {
    counts.inputs += script.iter().filter(|b| **b == b'\n').count() as u64;
    counts.bytes += spoken.stdout.len() as u64;
    for sent in air {
        counts.sent[sent.bytes[0] as usize - 1] += 1;
    }
    for line in spoken.stderr.lines() {
        let number = line.rsplit(' ').next().and_then(|word| word.parse::<usize>().ok());
        match number {
            Some(n) if line.starts_with("line") => counts.scripts[n] += 1,
            Some(n) => counts.deeds[n] += 1,
            None => {}
        }
    }
    if spoken.status == 0 {
        counts.scripts[0] += 1;
    }
}

pub fn speaker(c: &Context, mut r: Random, counts: &mut Counts) -> Result<(), Difference> {
    let faulty = r.once_in(2);
    let script = script(&mut r, faulty);
    let date = r.pick(&[0, 1, 1_763_400_000, u64::MAX]);
    let args: Vec<String> = if r.once_in(4) { vec![] } else { vec![date.to_string()] };
    let date = if args.is_empty() { 0 } else { date };
    let (expected, air) = speak(date, &script, c.plant);
    count_script(counts, &script, &expected, &air);
    let got = run(c, "speaker", &args, &script)?;
    compare("speaker", &args, &got, &expected, &script)
}

/// A receiver told by what was said and when it came, without keys and tags: what the promise asks for.
struct Promised {
    newest: u64,
    /// In the order of arrival.
    kept: Vec<Delivery>,
}

impl Promised {
    /// The outcome of a genuine message at a clock within E, and what is delivered of the key behind it.
    fn message(&mut self, p: &Settings, clock: u64, m: &Message, plant: Plant) -> (u8, Vec<Delivery>) {
        let it = Delivery {
            interval: m.interval,
            index: m.index,
            text: m.text.clone(),
        };
        let spare = if plant == Plant::LateBelieved { 1 } else { 0 };
        let in_time = clock as u128 + (p.e as u128) < p.release(m.interval as u64) + spare;
        let of_interval = self.kept.iter().filter(|k| k.interval == m.interval).count();
        let outcome = if self.kept.contains(&it) {
            0
        } else if !in_time {
            3
        } else if self.kept.len() == 64 || of_interval == 16 {
            6
        } else {
            self.kept.push(it);
            0
        };
        let behind = m.key_interval as u64;
        let taken = behind > self.newest && behind - self.newest <= 1024;
        (outcome, if taken { self.take(behind) } else { vec![] })
    }

    fn key(&mut self, interval: u64) -> (u8, Vec<Delivery>) {
        if interval <= self.newest {
            return (7, vec![]);
        }
        if interval - self.newest > 1024 {
            return (8, vec![]);
        }
        (0, self.take(interval))
    }

    fn take(&mut self, interval: u64) -> Vec<Delivery> {
        self.newest = interval;
        let mut delivered = vec![];
        for i in 1..=interval {
            delivered.extend(self.kept.iter().filter(|k| k.interval as u64 == i).cloned());
        }
        self.kept.retain(|k| k.interval as u64 > interval);
        delivered
    }
}

pub fn both(c: &Context, mut r: Random, counts: &mut Counts) -> Result<(), Difference> {
    let script = script(&mut r, false);
    let (expected, air) = speak(0, &script, c.plant);
    count_script(counts, &script, &expected, &air);
    let got = run(c, "speaker", &[], &script)?;
    compare("speaker", &[], &got, &expected, &script)?;
    let settings = Settings::read(&got.stdout[..47], Plant::None).expect("settings as the twin's");
    let mut said = vec![];
    for sent in &air {
        if let Some(Record::Message(m)) = read(&sent.bytes, Plant::None) {
            said.push(Delivery {
                interval: m.interval,
                index: m.index,
                text: m.text,
            });
        }
    }
    for _ in 0..4 {
        brought_back(c, &mut r, counts, &settings, &air)?;
    }
    for _ in 0..3 {
        receive(c, &mut r, counts, &settings, &air, &said)?;
    }
    Ok(())
}

/// What was sent reaches a receiver whose clock is within E: late, out of order, twice or never.
fn receive(
    c: &Context,
    r: &mut Random,
    counts: &mut Counts,
    settings: &Settings,
    air: &[Sent],
    said: &[Delivery],
) -> Result<(), Difference> {
    let lost = r.pick(&[0, 0, 10, 50, 90, 99]);
    let slow = r.pick(&[0, settings.s, settings.s * (settings.d + 1), settings.s * 40]);
    let mut arrivals = vec![];
    for (k, sent) in air.iter().enumerate() {
        let copies = if r.once_in(10) { 2 } else { 1 };
        for _ in 0..copies {
            if r.below(100) >= lost {
                let delay = if r.once_in(2) { 0 } else { r.below(slow + 1) };
                arrivals.push((
                    sent.time.saturating_add(delay),
                    r.below(1 << 20) + ((k as u64) << 16),
                    k,
                ));
            }
        }
    }
    arrivals.sort();
    let mut log = settings.write();
    let mut twin = Receiver::new(&log, c.plant).expect("settings in range");
    let (_, mut library) = Library::new(&log, r.next()).map_err(|what| Difference {
        what,
        input: log.clone(),
        program: "listener",
    })?;
    let mut promised = Promised {
        newest: 0,
        kept: vec![],
    };
    let mut delivered: Vec<Delivery> = vec![];
    for (time, _, k) in arrivals {
        let low = time.saturating_sub(settings.e).max(twin.clock);
        let high = time.saturating_add(settings.e);
        let clock = match r.below(4) {
            0 => low,
            1 => high,
            _ => low + r.below((high - low).saturating_add(1)),
        };
        let (tick, bytes) = (write_tick(clock), &air[k].bytes);
        log.extend(frame(CLOCK, &tick));
        log.extend(frame(AIR, bytes));
        let fault = |what| Difference {
            what,
            input: log.clone(),
            program: "listener",
        };
        let told = (twin.clock(&tick), library.clock(&tick).map_err(fault)?);
        let asked = match read(bytes, Plant::None) {
            Some(Record::Message(m)) => promised.message(settings, clock, &m, c.plant),
            Some(Record::Key(interval, _)) => promised.key(interval as u64),
            _ => return Err(fault(format!("what was sent is no record: {}", hex(bytes)))),
        };
        let steps = twin.steps;
        let (by_twin, by_library) = (twin.air(bytes), library.air(bytes).map_err(fault)?);
        counts.inputs += 2;
        counts.bytes += bytes.len() as u64;
        counts.clock[told.0 as usize] += 1;
        counts.air[asked.0 as usize] += 1;
        counts.delivered += asked.1.len() as u64;
        counts.steps += twin.steps - steps;
        if told != (0, 0) || by_library != asked || by_twin != asked {
            return Err(fault(format!(
                "time {time}, clock {clock}, {settings:?}, bytes {}:\n  the clock's answers are {told:?} (twin, library);\n  \
                 the library says {by_library:?},\n  the twin {by_twin:?},\n  asked for is {asked:?}",
                hex(bytes)
            )));
        }
        delivered.extend(by_library.1);
    }
    for (k, d) in delivered.iter().enumerate() {
        if !said.contains(d) || delivered[..k].contains(d) {
            let what = format!("delivered and not said, or twice: {d:?}");
            return Err(Difference {
                what,
                input: log,
                program: "listener",
            });
        }
    }
    Ok(())
}

/// Whoever hears 62 disclosures in a row has the key that was the newest at the first of them, or a later one.
fn brought_back(
    c: &Context,
    r: &mut Random,
    counts: &mut Counts,
    settings: &Settings,
    air: &[Sent],
) -> Result<(), Difference> {
    let mut disclosures = vec![];
    for sent in air {
        let disclosed = match read(&sent.bytes, Plant::None) {
            Some(Record::Message(m)) => m.key_interval,
            Some(Record::Key(interval, _)) => interval,
            _ => 0,
        };
        let interval = settings.interval(sent.time);
        if disclosed > 0 && interval <= settings.n {
            disclosures.push((interval - settings.d - 1, &sent.bytes));
        }
    }
    let row = if c.plant == Plant::TwentyInARow { 20 } else { 62 };
    if disclosures.len() < row {
        return Ok(());
    }
    let from = r.below((disclosures.len() - row + 1) as u64) as usize;
    let mut log = settings.write();
    let fault = |what, log: &[u8]| Difference {
        what,
        input: log.to_vec(),
        program: "listener",
    };
    let (_, mut library) = Library::new(&log, r.next()).map_err(|what| fault(what, &log))?;
    for (_, bytes) in &disclosures[from..from + row] {
        log.extend(frame(AIR, bytes));
        library.air(bytes).map_err(|what| fault(what, &log))?;
        counts.inputs += 1;
    }
    let newest = disclosures[from].0;
    let last = write_key(newest as u16, &[0; 32]);
    log.extend(frame(AIR, &last));
    let (got, _) = library.air(&last).map_err(|what| fault(what, &log))?;
    if got != 7 {
        return Err(fault(
            format!("{row} disclosures in a row, and key {newest} is still news: {got}, {settings:?}"),
            &log,
        ));
    }
    counts.brought_back += 1;
    Ok(())
}
