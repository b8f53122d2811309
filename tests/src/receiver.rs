//! The twin's receiver.

use crate::plant::Plant;
use crate::wire::*;

#[derive(Clone)]
pub struct Receiver {
    pub settings: Settings,
    pub clock: u64,
    pub newest: u16,
    pub key: Key,
    /// In the order of arrival.
    pub buffer: Vec<Message>,
    /// Steps of the key chain that were worked out so far.
    pub steps: u64,
    /// What the last input's key behind a message came to, if it was looked at.
    pub behind: Option<u8>,
    plant: Plant,
}

impl Receiver {
    pub fn new(bytes: &[u8], plant: Plant) -> Result<Receiver, u8> {
        let settings = Settings::read(bytes, plant)?;
        Ok(Receiver {
            clock: 0,
            newest: 0,
            key: settings.key0,
            buffer: vec![],
            steps: 0,
            behind: None,
            settings,
            plant,
        })
    }

    pub fn clock(&mut self, bytes: &[u8]) -> u8 {
        let Some(Record::Tick(tick)) = read(bytes, self.plant) else {
            return 1;
        };
        let back = tick < self.clock || self.plant == Plant::ClockStands10 && tick == self.clock;
        if !back || self.plant == Plant::ClockBackTaken {
            self.clock = tick;
        }
        if back { 10 } else { 0 }
    }

    pub fn air(&mut self, bytes: &[u8]) -> (u8, Vec<Delivery>) {
        self.behind = None;
        match read(bytes, self.plant) {
            Some(Record::Message(m)) => self.message(m),
            Some(Record::Key(interval, key)) => match self.take_key(interval, key) {
                Ok(delivered) => (0, delivered),
                Err(refusal) => (refusal, vec![]),
            },
            Some(Record::Tick(_)) if self.plant == Plant::TickOnAir => (self.clock(bytes), vec![]),
            _ => (1, vec![]),
        }
    }

    fn message(&mut self, m: Message) -> (u8, Vec<Delivery>) {
        let (key_interval, key) = (m.key_interval, m.key);
        let had = self.newest;
        let mut delivered = vec![];
        if self.plant == Plant::KeyFirst && key_interval > had {
            delivered = self.take_key(key_interval, key).unwrap_or_default();
        }
        let index = m.index;
        let mut outcome = self.judge(&m);
        let equal = self.has(&m);
        if outcome == 0 && !equal {
            self.buffer.push(m);
        }
        let kept_back = match self.plant {
            Plant::RefusedKeepsKey => outcome != 0,
            Plant::IndexKeepsKey => index > 63,
            Plant::EqualKeepsKey => equal,
            _ => false,
        };
        if key_interval > had && !kept_back && self.plant != Plant::KeyFirst {
            let taken = self.take_key(key_interval, key);
            self.behind = Some(taken.as_ref().err().copied().unwrap_or(0));
            match taken {
                Ok(d) => delivered = d,
                Err(refusal) if self.plant == Plant::KeyBehindTold && outcome == 0 => outcome = refusal,
                Err(_) => {}
            }
        }
        (outcome, delivered)
    }

    fn has(&self, m: &Message) -> bool {
        self.buffer.iter().any(|b| {
            (b.interval, b.index, &b.text) == (m.interval, m.index, &m.text)
                && (b.tag == m.tag || self.plant == Plant::EqualWithoutTag)
                && (self.plant != Plant::EqualWithKey || b == m)
        })
    }

    fn known(&self, interval: u16) -> bool {
        let last = match self.plant {
            Plant::LastRefused => self.settings.n - 1,
            Plant::AboveLast => self.settings.n + 1,
            _ => self.settings.n,
        };
        (1..=last).contains(&(interval as u64))
    }

    fn judge(&self, m: &Message) -> u8 {
        let p = self.plant;
        if !self.known(m.interval) || m.index > if p == Plant::Index64 { 64 } else { 63 } {
            return 2;
        }
        let equal = self.has(m);
        if equal && p != Plant::EqualAfterTime && p != Plant::EqualAfterRoom {
            return 0;
        }
        if p == Plant::LowerOrderOf4 && m.interval <= self.newest {
            return 4;
        }
        let error = self.settings.e as u128;
        let release = self.settings.release(m.interval as u64);
        let late_by = match p {
            Plant::SafetyWithoutError => self.clock as u128,
            Plant::SafetyIn64Bits => self.clock.wrapping_add(self.settings.e) as u128,
            Plant::SafetyOneLate => (self.clock as u128 + error).saturating_sub(1),
            _ => self.clock as u128 + error,
        };
        if late_by >= release && !(equal && p == Plant::EqualAfterRoom) {
            return 3;
        }
        if equal && p == Plant::EqualAfterTime {
            return 0;
        }
        if m.interval <= self.newest {
            return 4;
        }
        let begin = self.settings.begin(m.interval as u64);
        let early = match p {
            Plant::EarlyWithoutError => begin > self.clock as u128,
            Plant::EarlyOneOff => begin >= self.clock as u128 + error && begin > 0,
            _ => begin > self.clock as u128 + error,
        };
        if early {
            return 5;
        }
        let room = match p {
            Plant::Room63 => 63,
            Plant::Room65 => 65,
            _ => 64,
        };
        let share = match p {
            Plant::Share15 => 15,
            Plant::Share17 => 17,
            _ => 16,
        };
        let of_interval = self.buffer.iter().filter(|b| b.interval == m.interval).count();
        if self.buffer.len() >= room || of_interval >= share {
            return 6;
        }
        0
    }

    fn take_key(&mut self, interval: u16, key: Key) -> Result<Vec<Delivery>, u8> {
        if !self.known(interval) {
            return Err(2);
        }
        if interval <= self.newest {
            return Err(7);
        }
        let ahead = match self.plant {
            Plant::Ahead1023 => 1023,
            Plant::Ahead1025 => 1025,
            _ => 1024,
        };
        if interval - self.newest > ahead {
            return Err(8);
        }
        // The keys from that of `interval` down to that of `newest`.
        let mut keys = vec![key];
        for _ in self.newest..interval {
            keys.push(previous(&keys[keys.len() - 1]));
        }
        self.steps += (interval - self.newest) as u64;
        if keys[keys.len() - 1] != self.key {
            if self.plant == Plant::WrongKeyForgets {
                self.buffer.retain(|m| m.interval > interval);
            }
            return Err(9);
        }
        let had = self.newest;
        self.newest = interval;
        self.key = key;
        let only = self.plant == Plant::ForgetOnlyOne;
        let (mut looked_at, rest): (Vec<_>, Vec<_>) = self.buffer.drain(..).partition(|m| {
            if only {
                m.interval == interval
            } else {
                m.interval > had && m.interval <= interval
            }
        });
        self.buffer = rest;
        match self.plant {
            Plant::DeliverByArrival => {}
            Plant::DeliverByIndex => looked_at.sort_by_key(|m| (m.interval, m.index)),
            _ => looked_at.sort_by_key(|m| m.interval),
        }
        let compared = if self.plant == Plant::DeliverUnchecked { 8 } else { 16 };
        let mut delivered = vec![];
        for m in looked_at {
            let right = tag(&keys[(interval - m.interval) as usize], m.interval, m.index, &m.text);
            if m.tag[..compared] == right[..compared] {
                delivered.push(Delivery {
                    interval: m.interval,
                    index: m.index,
                    text: m.text,
                });
            } else if self.plant == Plant::WrongTagStays {
                self.buffer.push(m);
            }
        }
        Ok(delivered)
    }
}
