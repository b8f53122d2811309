//! The twin's records.

use crate::plant::Plant;
use crate::sha256::hmac;

pub type Key = [u8; 32];

#[derive(Clone, Debug)]
pub struct Settings {
    pub date: u64,
    pub s: u64,
    pub d: u64,
    pub e: u64,
    pub n: u64,
    pub key0: Key,
}

/// S ticks an interval, disclosure delay D, clock error E, last interval N.
pub fn in_range(s: u64, d: u64, e: u64, n: u64, plant: Plant) -> bool {
    let twice = 2 * e as u128;
    let delay = s as u128 * d as u128;
    let e_fits = twice < delay || plant == Plant::HalfDelay && twice == delay;
    (1..=3600).contains(&s) && (1..=8).contains(&d) && (1..=16384).contains(&n) && e_fits
}

fn number(bytes: &[u8]) -> u64 {
    bytes.iter().fold(0, |n, &b| n << 8 | b as u64)
}

impl Settings {
    pub fn read(b: &[u8], plant: Plant) -> Result<Settings, u8> {
        if b.len() != 47 {
            return Err(1);
        }
        let (s, d, e, n) = (
            number(&b[8..10]),
            number(&b[10..11]),
            number(&b[11..13]),
            number(&b[13..15]),
        );
        if !in_range(s, d, e, n, plant) {
            return Err(11);
        }
        Ok(Settings {
            date: number(&b[..8]),
            s,
            d,
            e,
            n,
            key0: b[15..].try_into().unwrap(),
        })
    }

    /// Numbers that don't fit are cut: made for settings that are to be refused, too.
    pub fn write(&self) -> Vec<u8> {
        let mut out = self.date.to_be_bytes().to_vec();
        out.extend((self.s as u16).to_be_bytes());
        out.push(self.d as u8);
        out.extend((self.e as u16).to_be_bytes());
        out.extend((self.n as u16).to_be_bytes());
        out.extend(self.key0);
        out
    }

    /// The interval of a tick.
    pub fn interval(&self, tick: u64) -> u64 {
        (tick / self.s).saturating_add(1)
    }

    /// The first tick of an interval, from 1.
    pub fn begin(&self, interval: u64) -> u128 {
        (interval as u128 - 1) * self.s as u128
    }

    /// The first tick at which the key of an interval may be out.
    pub fn release(&self, interval: u64) -> u128 {
        self.begin(interval + self.d + 1)
    }
}

#[derive(Clone, Debug, PartialEq, Eq)]
pub struct Message {
    pub interval: u16,
    pub index: u8,
    pub text: Vec<u8>,
    pub tag: [u8; 16],
    pub key_interval: u16,
    pub key: Key,
}

#[derive(Clone, Debug)]
pub enum Record {
    Message(Message),
    Key(u16, Key),
    Tick(u64),
}

/// All that the tag is over.
pub fn under_tag(interval: u16, index: u8, text: &[u8]) -> Vec<u8> {
    let mut out = vec![1];
    out.extend(interval.to_be_bytes());
    out.push(index);
    out.push(text.len() as u8);
    out.extend(text);
    out
}

pub fn previous(key: &Key) -> Key {
    hmac(key, &[1])
}

pub fn tag(key: &Key, interval: u16, index: u8, text: &[u8]) -> [u8; 16] {
    hmac(&hmac(key, &[2]), &under_tag(interval, index, text))[..16]
        .try_into()
        .unwrap()
}

impl Message {
    pub fn write(&self) -> Vec<u8> {
        let mut out = under_tag(self.interval, self.index, &self.text);
        out.extend(self.tag);
        out.extend(self.key_interval.to_be_bytes());
        out.extend(self.key);
        out
    }
}

pub fn write_key(interval: u16, key: &Key) -> Vec<u8> {
    let mut out = vec![2];
    out.extend(interval.to_be_bytes());
    out.extend(key);
    out
}

pub fn write_tick(tick: u64) -> Vec<u8> {
    let mut out = vec![3];
    out.extend(tick.to_be_bytes());
    out
}

pub fn read(b: &[u8], plant: Plant) -> Option<Record> {
    let longest = if plant == Plant::Text201 { 201 } else { 200 };
    match *b.first()? {
        1 => {
            let n = *b.get(4)? as usize;
            if n > longest || b.len() != 5 + n + 16 + 2 + 32 {
                return None;
            }
            let (front, back) = b.split_at(5 + n);
            Some(Record::Message(Message {
                interval: number(&front[1..3]) as u16,
                index: front[3],
                text: front[5..].to_vec(),
                tag: back[..16].try_into().unwrap(),
                key_interval: number(&back[16..18]) as u16,
                key: back[18..].try_into().unwrap(),
            }))
        }
        2 if b.len() == 35 => Some(Record::Key(number(&b[1..3]) as u16, b[3..].try_into().unwrap())),
        3 if b.len() == 9 => Some(Record::Tick(number(&b[1..]))),
        _ => None,
    }
}

#[derive(Clone, Debug, PartialEq, Eq)]
pub struct Delivery {
    pub interval: u16,
    pub index: u8,
    pub text: Vec<u8>,
}

impl Delivery {
    pub fn write(&self) -> Vec<u8> {
        let mut out = under_tag(self.interval, self.index, &self.text);
        out[0] = 16;
        out
    }
}
