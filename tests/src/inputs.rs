//! Inputs of a receiver, by chance and by what the twin's state makes interesting; each is given to the twin
//! and to the proved receiver, and what they answer is compared.

use crate::library::Library;
use crate::plant::Plant;
use crate::programs::{AIR, CLOCK, frame};
use crate::random::Random;
use crate::receiver::Receiver;
use crate::report::{Counts, Difference, hex};
use crate::sender::Sender;
use crate::wire::*;

/// Settings in range, small ones often. `keys` is a chain longer than any; a piece of it is a chain, too.
pub fn settings(r: &mut Random, keys: &[Key]) -> (Settings, Vec<Key>) {
    let d = r.within(1, 8);
    let (s, n) = match r.below(10) {
        0..=3 => (r.within(1, 6), r.within(1, 24)),
        4..=5 => (r.within(1, 60), r.within(1, 300)),
        6 => (
            r.within(1, 10),
            r.pick(&[1, 2, 1023, 1024, 1025, 1026, 1030, 2047, 2048, 2049, 3000]),
        ),
        7 => (
            r.pick(&[1, 2, 60, 3599, 3600]),
            r.pick(&[1, 127, 128, 129, 16383, 16384]),
        ),
        _ => (r.within(1, 3600), r.within(1, 16384)),
    };
    let most = (s * d - 1) / 2;
    let e = match r.below(4) {
        0 => 0,
        1 => most,
        _ => r.within(0, most),
    };
    let date = r.pick(&[0, 1_763_400_000, u64::MAX, 0x8000_0000_0000_0000]) ^ if r.once_in(2) { r.next() } else { 0 };
    let from = r.below(keys.len() as u64 - n) as usize;
    let piece = keys[from..=from + n as usize].to_vec();
    (
        Settings {
            date,
            s,
            d,
            e,
            n,
            key0: piece[0],
        },
        piece,
    )
}

/// Settings' bytes about the limits, or of a wrong length.
pub fn odd_settings(r: &mut Random) -> Vec<u8> {
    let (s, d): (u64, u64) = (
        r.pick(&[0, 1, 2, 3599, 3600, 3601, 65535]),
        r.pick(&[0, 1, 2, 7, 8, 9, 255]),
    );
    let half = s * d / 2;
    let e = r.pick(&[0, half.saturating_sub(1), half, half + 1, 65535]).min(65535);
    let n = r.pick(&[0, 1, 2, 16383, 16384, 16385, 65535]);
    let mut bytes = Settings {
        date: r.next(),
        s,
        d,
        e,
        n,
        key0: r.key(),
    }
    .write();
    match r.below(8) {
        0 => bytes.truncate(r.below(47) as usize),
        1 => {
            let more = r.within(1, 60) as usize;
            bytes.extend(r.bytes(more));
        }
        2 => bytes = r.bytes(47),
        _ => {}
    }
    bytes
}

const ACTS: usize = 13;

pub struct Run<'a> {
    pub r: Random,
    pub twin: Receiver,
    pub library: Option<Library>,
    /// All inputs so far, as a listener's.
    pub log: Vec<u8>,
    pub counts: &'a mut Counts,
    keys: Vec<Key>,
    sender: Sender,
    time: u64,
    pool: Vec<Vec<u8>>,
    weights: [u64; ACTS],
    /// Keys are mostly those that may be out.
    calm: bool,
    /// Whether keys far ahead are tried: they take many steps.
    far: bool,
}

impl<'a> Run<'a> {
    /// A receiver of random settings; `with_library` has the proved one beside the twin's.
    pub fn new(
        mut r: Random,
        chain: &[Key],
        plant: Plant,
        with_library: bool,
        counts: &'a mut Counts,
    ) -> Result<Run<'a>, Difference> {
        let (settings, keys) = settings(&mut r, chain);
        let bytes = settings.write();
        let sender = Sender::new(settings, keys.clone(), Plant::None);
        let fault = |what| Difference {
            what,
            input: bytes.clone(),
            program: "listener",
        };
        let twin = Receiver::new(&bytes, plant).map_err(|n| fault(format!("the twin refuses settings with {n}")))?;
        let mut library = None;
        if with_library {
            let (number, it) = Library::new(&bytes, r.next()).map_err(fault)?;
            counts.settings[number as usize % 12] += 1;
            if number != 0 {
                return Err(fault(format!("settings: the library says {number}, the twin 0")));
            }
            library = Some(it);
        }
        let weights = [(); ACTS].map(|_| r.pick(&[0, 1, 1, 4, 12]));
        let (calm, far) = (!r.once_in(4), r.once_in(3));
        let (time, pool) = (0, vec![]);
        Ok(Run {
            r,
            twin,
            library,
            log: bytes,
            counts,
            keys,
            sender,
            time,
            pool,
            weights,
            calm,
            far,
        })
    }

    fn differs(&self, what: String) -> Difference {
        Difference {
            what,
            input: self.log.clone(),
            program: "listener",
        }
    }

    pub fn clock(&mut self, bytes: &[u8]) -> Result<(), Difference> {
        self.log.extend(frame(CLOCK, bytes));
        let expected = self.twin.clock(bytes);
        self.counts.inputs += 1;
        self.counts.bytes += bytes.len() as u64;
        self.counts.clock[expected as usize] += 1;
        if let Some(library) = &mut self.library {
            let got = library.clock(bytes).map_err(|what| Difference {
                what,
                input: self.log.clone(),
                program: "listener",
            })?;
            if got != expected {
                let was = self.twin.clock;
                return Err(self.differs(format!(
                    "clock, bytes {}: the library says {got}, the twin {expected}, whose clock is now {was}",
                    hex(bytes)
                )));
            }
        }
        Ok(())
    }

    pub fn tick(&mut self, tick: u64) -> Result<(), Difference> {
        self.clock(&write_tick(tick))
    }

    pub fn air(&mut self, bytes: &[u8]) -> Result<(), Difference> {
        self.log.extend(frame(AIR, bytes));
        let steps = self.twin.steps;
        let expected = self.twin.air(bytes);
        self.counts.inputs += 1;
        self.counts.bytes += bytes.len() as u64;
        self.counts.air[expected.0 as usize] += 1;
        self.counts.delivered += expected.1.len() as u64;
        self.counts.steps += self.twin.steps - steps;
        if let Some(behind) = self.twin.behind {
            let of = if expected.0 == 0 {
                &mut self.counts.behind
            } else {
                &mut self.counts.behind_refused
            };
            of[behind as usize] += 1;
        }
        if let Some(library) = &mut self.library {
            let got = library.air(bytes).map_err(|what| Difference {
                what,
                input: self.log.clone(),
                program: "listener",
            })?;
            if got != expected {
                let (clock, newest) = (self.twin.clock, self.twin.newest);
                return Err(self.differs(format!(
                    "air, bytes {}:\n  the library says {got:?},\n  the twin {expected:?};\n  clock {clock}, newest now {newest}, {:?}",
                    hex(bytes),
                    self.twin.settings
                )));
            }
        }
        Ok(())
    }

    fn settings(&self) -> &Settings {
        &self.twin.settings
    }

    fn now(&self) -> u64 {
        self.settings().interval(self.twin.clock)
    }

    /// The latest interval that isn't too early.
    fn front(&self) -> u64 {
        self.settings()
            .interval(self.twin.clock.saturating_add(self.settings().e))
    }

    fn some_interval(&mut self) -> u16 {
        let (now, front, d, n, newest) = (
            self.now(),
            self.front(),
            self.settings().d,
            self.settings().n,
            self.twin.newest as u64,
        );
        let i = match self.r.below(14) {
            0..=3 => self.acceptable(),
            4..=5 => self.r.about(now, d + 3),
            6..=7 => newest + self.r.below(4),
            8 => self.r.about(front.saturating_sub(d), 1),
            9 => self.r.about(front, 1),
            10 => self.r.about(n, 1),
            11 => self.r.below(4),
            12 => self.r.within(1, n),
            _ => self.r.below(65536),
        };
        i.min(65535) as u16
    }

    /// An interval that is neither too late nor too early, if there is one up to N.
    fn acceptable(&mut self) -> u64 {
        let (front, d, n) = (self.front(), self.settings().d, self.settings().n);
        let low = front.saturating_sub(d).max(1).max(self.twin.newest as u64 + 1);
        let high = front.min(n);
        if low <= high { self.r.within(low, high) } else { n }
    }

    fn right_key(&mut self, interval: u16) -> Key {
        match self.keys.get(interval as usize) {
            Some(key) => *key,
            None => self.r.key(),
        }
    }

    fn wrong_key(&mut self, interval: u16) -> Key {
        let mut key = self.right_key(interval);
        match self.r.below(4) {
            0 => key[self.r.below(32) as usize] ^= 1 << self.r.below(8),
            1 => key = self.right_key(interval.wrapping_add(1)),
            2 => key = self.right_key(interval.wrapping_sub(1)),
            _ => key = self.r.key(),
        }
        key
    }

    /// A key with its interval, right or wrong.
    fn some_key(&mut self) -> (u16, Key) {
        let newest = self.twin.newest as u64;
        let out = self.now().saturating_sub(self.settings().d + 1).min(self.settings().n);
        let j = match self.r.below(16) {
            0..=6 if self.calm => match out > newest {
                true if out - newest <= 40 || self.far => self.r.within(newest + 1, out),
                true => newest + self.r.within(1, 40),
                false => newest.saturating_sub(self.r.below(3)),
            },
            0..=2 => newest + self.r.within(1, 5),
            3..=4 if self.far => newest + self.r.within(1020, 1028),
            5 if self.far => newest + 1024,
            6 if self.far => newest + 1025,
            7 => newest.saturating_sub(self.r.below(3)),
            8 => newest + 1026 + self.r.below(2000),
            9 => self.r.about(self.settings().n, 1),
            10 => self.r.below(65536),
            11 => 0,
            12 if self.calm => out,
            12 => self.some_interval() as u64,
            _ => newest + 1,
        };
        let j = j.min(65535) as u16;
        let key = if self.r.once_in(5) {
            self.wrong_key(j)
        } else {
            self.right_key(j)
        };
        (j, key)
    }

    fn some_text(&mut self) -> Vec<u8> {
        let n = match self.r.below(12) {
            0 => 0,
            1 => 200,
            2 => self.r.below(201),
            _ => self.r.within(1, 12),
        };
        self.r.bytes(n as usize)
    }

    fn some_tag(&mut self, interval: u16, index: u8, text: &[u8]) -> [u8; 16] {
        let key = self.right_key(interval);
        let mut right = tag(&key, interval, index, text);
        match self.r.below(12) {
            0 => right[self.r.below(16) as usize] ^= 1 << self.r.below(8),
            1 => right[8..].copy_from_slice(&self.r.bytes(8)),
            2 => right = self.r.bytes(16).try_into().unwrap(),
            3 => {
                let other = self.right_key(interval.wrapping_add(1));
                right = tag(&other, interval, index, text);
            }
            _ => {}
        }
        right
    }

    fn message_of(&mut self, interval: u16) -> Message {
        let index = match self.r.below(24) {
            0 => 63,
            1 => 64,
            2 => self.r.below(256) as u8,
            _ => self.r.below(64) as u8,
        };
        let text = self.some_text();
        let tag = self.some_tag(interval, index, &text);
        let (key_interval, key) = match self.r.below(8) {
            0..=3 => (0, [0; 32]),
            4 => (0, self.r.key()),
            _ => self.some_key(),
        };
        Message {
            interval,
            index,
            text,
            tag,
            key_interval,
            key,
        }
    }

    fn some_message(&mut self) -> Message {
        let interval = self.some_interval();
        self.message_of(interval)
    }

    /// Some record that was made before, or a new one.
    fn some_record(&mut self) -> Vec<u8> {
        if !self.pool.is_empty() && self.r.once_in(2) {
            let k = self.r.below(self.pool.len() as u64) as usize;
            return self.pool[k].clone();
        }
        if self.r.once_in(3) {
            let (j, key) = self.some_key();
            return write_key(j, &key);
        }
        self.some_message().write()
    }

    fn damaged(&mut self) -> Vec<u8> {
        let mut bytes = self.some_record();
        match self.r.below(11) {
            0..=2 => {
                for _ in 0..self.r.within(1, 3) {
                    let k = self.r.below(bytes.len() as u64) as usize;
                    bytes[k] ^= 1 << self.r.below(8);
                }
            }
            3 => bytes.truncate(self.r.below(bytes.len() as u64) as usize),
            4 => bytes.truncate(bytes.len() - 1),
            5 => {
                let more = self.r.within(1, 40) as usize;
                bytes.extend(self.r.bytes(more));
            }
            6 => bytes.extend(self.some_record()),
            7 => bytes[0] = self.r.pick(&[0, 1, 2, 3, 4, 16, 17, 255]),
            8 if bytes[0] == 1 => bytes[4] = self.r.pick(&[0, 1, 199, 200, 201, 255, bytes[4] ^ 1]),
            // A text of more than 200 bytes, in a record of that length.
            8..=9 => {
                let mut m = self.some_message();
                let n = self.r.pick(&[201, 201, 202, 255]);
                m.text = self.r.bytes(n);
                m.tag = self.some_tag(m.interval, m.index, &m.text);
                bytes = m.write();
            }
            _ => {
                bytes.remove(self.r.below(bytes.len() as u64) as usize);
            }
        }
        bytes
    }

    /// A buffered message again, or one that differs from it in one part.
    fn variant(&mut self) -> Option<Message> {
        if self.twin.buffer.is_empty() {
            return None;
        }
        let k = self.r.below(self.twin.buffer.len() as u64) as usize;
        let mut m = self.twin.buffer[k].clone();
        match self.r.below(10) {
            0 => m.index = (m.index + 1) % 64,
            1 => m.text = self.some_text(),
            2 => m.interval = m.interval.wrapping_add(1),
            3..=4 => m.tag = self.some_tag(m.interval, m.index, &m.text),
            5 => m.tag[self.r.below(16) as usize] ^= 1 << self.r.below(8),
            6 => (m.key_interval, m.key) = self.some_key(),
            7 => (m.key_interval, m.key) = (0, self.r.key()),
            _ => {}
        }
        Some(m)
    }

    /// A tick about one at which the outcome of a message changes.
    fn edge(&mut self) -> u64 {
        let i = match self.twin.buffer.last() {
            Some(m) if self.r.once_in(2) => m.interval as u64,
            _ => (self.some_interval() as u64).max(1),
        };
        let at = if self.r.once_in(2) {
            self.settings().release(i)
        } else {
            self.settings().begin(i)
        };
        let at = at.saturating_sub(self.settings().e as u128) as u64;
        self.r.about(at, 1)
    }

    /// A tick ahead of the clock; not far, if it is to go on.
    fn ahead(&mut self) -> u64 {
        let s = self.settings().s;
        let by = match self.r.below(6) {
            0 => 0,
            1 => 1,
            2 => self.r.below(s * 4),
            3 => s,
            _ => self.r.below(s + 1),
        };
        self.twin.clock.saturating_add(by)
    }

    fn keep(&mut self, bytes: &[u8]) {
        if self.pool.len() < 200 {
            self.pool.push(bytes.to_vec());
        }
    }

    /// Time goes on at the sender, who says something; some of it reaches the receiver, whose clock is about right.
    fn live(&mut self) -> Result<(), Difference> {
        let s = self.settings().s;
        let error = self.settings().e * if self.r.once_in(20) { 3 } else { 1 };
        self.time = self.time.max(self.twin.clock.saturating_sub(self.settings().e));
        for _ in 0..self.r.within(1, 6) {
            self.time = self.time.saturating_add(self.r.below(s + 1));
            let mut sent: Vec<Vec<u8>> = self.sender.tick(self.time).ok().flatten().into_iter().collect();
            for _ in 0..self.r.below(4) {
                let text = self.some_text();
                sent.extend(self.sender.say(&text).ok());
            }
            let shown = self.r.about(self.time, error);
            if shown >= self.twin.clock || self.r.once_in(4) {
                self.tick(shown)?;
            }
            for bytes in sent {
                self.keep(&bytes);
                if !self.r.once_in(4) {
                    self.air(&bytes)?;
                }
            }
        }
        Ok(())
    }

    /// More than there is room for: of one interval, or of several.
    fn flood(&mut self) -> Result<(), Difference> {
        let one = self.r.once_in(2).then(|| self.acceptable());
        let many = if one.is_some() {
            self.r.within(14, 20)
        } else {
            self.r.within(40, 80)
        };
        for _ in 0..many {
            let interval = one.unwrap_or_else(|| self.acceptable()).min(65535) as u16;
            let index = self.r.below(64) as u8;
            let length = self.r.below(6) as usize;
            let text = self.r.bytes(length);
            let tag = self.some_tag(interval, index, &text);
            let m = Message {
                interval,
                index,
                text,
                tag,
                key_interval: 0,
                key: [0; 32],
            };
            self.air(&m.write())?;
            if one.is_none() && self.r.once_in(12) {
                let tick = self.twin.clock.saturating_add(self.r.below(self.settings().s));
                self.tick(tick)?;
            }
        }
        Ok(())
    }

    fn act(&mut self, which: usize) -> Result<(), Difference> {
        match which {
            0 => {
                let tick = self.ahead();
                self.tick(tick)
            }
            1 => {
                let tick = self.edge();
                let near = tick >= self.twin.clock && tick - self.twin.clock < 40 * self.settings().s;
                if near || self.r.once_in(8) {
                    self.tick(tick)
                } else {
                    Ok(())
                }
            }
            2 => {
                let by = self.r.pick(&[1, 1, 2, 1000, u64::MAX]);
                self.tick(self.twin.clock.saturating_sub(by))
            }
            3 => {
                let mut bytes = write_tick(self.ahead());
                match self.r.below(6) {
                    0 => bytes.truncate(self.r.below(9) as usize),
                    1 => bytes.push(self.r.next() as u8),
                    2 => bytes[0] = self.r.pick(&[0, 1, 2, 4, 16, 255]),
                    3 => bytes = self.some_record(),
                    4 => {
                        let n = self.r.below(40) as usize;
                        bytes = self.r.bytes(n);
                    }
                    _ => bytes.extend(write_tick(self.twin.clock)),
                }
                self.clock(&bytes)
            }
            4 => self.live(),
            5 => {
                let bytes = self.some_record();
                self.air(&bytes)
            }
            6 | 7 => {
                let interval = if which == 6 {
                    self.acceptable().min(65535) as u16
                } else {
                    self.some_interval()
                };
                let bytes = self.message_of(interval).write();
                self.keep(&bytes);
                self.air(&bytes)
            }
            8 => {
                let (j, key) = self.some_key();
                let bytes = write_key(j, &key);
                self.keep(&bytes);
                self.air(&bytes)
            }
            9 => {
                let bytes = self.damaged();
                self.air(&bytes)
            }
            10 if self.r.once_in(6) => self.flood(),
            11 => match self.variant() {
                Some(m) => self.air(&m.write()),
                None => Ok(()),
            },
            12 => {
                let bytes = match self.r.below(6) {
                    0 => vec![],
                    1 => write_tick(self.ahead()),
                    2 => write_tick(u64::MAX),
                    3 => {
                        let mut bytes = vec![self.r.below(18) as u8];
                        let n = self.r.pick(&[0, 8, 34, 54, 55, 254, 255, 1000, 65534]);
                        bytes.extend(self.r.bytes(n));
                        bytes
                    }
                    _ => {
                        let n = self.r.below(300) as usize;
                        self.r.bytes(n)
                    }
                };
                self.air(&bytes)
            }
            _ => Ok(()),
        }
    }

    /// Some inputs at the end of 64-bit time.
    fn end_of_time(&mut self) -> Result<(), Difference> {
        let start = self.r.pick(&[u64::MAX - 100_000, u64::MAX - 10, 1 << 63, u64::MAX]);
        self.tick(start)?;
        for _ in 0..self.r.within(5, 25) {
            let tick = self.twin.clock.saturating_add(self.r.pick(&[0, 1, 2, 30_000]));
            self.tick(tick)?;
            self.act(2)?;
            let which = self.r.pick(&[5, 6, 7, 8, 9, 11]);
            self.act(which)?;
        }
        Ok(())
    }

    /// What is buffered is brought to light by keys.
    fn reveal(&mut self) -> Result<(), Difference> {
        for _ in 0..17 {
            let Some(last) = self.twin.buffer.iter().map(|m| m.interval).max() else {
                break;
            };
            let j = last.min(self.twin.newest + 1024);
            let key = self.right_key(j);
            self.air(&write_key(j, &key))?;
        }
        Ok(())
    }

    /// Right keys, up to the one that may be out in an interval.
    fn catch_up(&mut self, interval: u64) -> Result<(), Difference> {
        let last = interval.saturating_sub(self.settings().d + 1).min(self.settings().n) as u16;
        for _ in 0..17 {
            if self.twin.newest >= last {
                break;
            }
            let j = last.min(self.twin.newest + 1024);
            let key = self.right_key(j);
            self.air(&write_key(j, &key))?;
        }
        Ok(())
    }

    pub fn play(&mut self, inputs: u64) -> Result<(), Difference> {
        let n = self.settings().n;
        if self.r.once_in(3) {
            let highest = if self.far { n } else { n.min(60) };
            let i = self.r.within(1, highest);
            let tick = self.settings().begin(i) as u64;
            self.time = tick;
            self.tick(tick)?;
            if self.far && self.r.once_in(3) {
                self.catch_up(i)?;
            }
        }
        let total: u64 = self.weights.iter().sum::<u64>().max(1);
        let end = self.counts.inputs + inputs;
        let mut idle = 0;
        while self.counts.inputs < end && idle < 10 * inputs {
            idle += 1;
            let mut at = self.r.below(total);
            let mut which = 0;
            while which < ACTS - 1 && at >= self.weights[which] {
                at -= self.weights[which];
                which += 1;
            }
            self.act(which)?;
        }
        if self.r.once_in(3) {
            self.end_of_time()?;
        }
        if self.r.once_in(2) {
            self.reveal()?;
        }
        Ok(())
    }
}
