//! The twin's sender, with the whole chain.

use crate::plant::Plant;
use crate::wire::*;

pub struct Sender {
    pub settings: Settings,
    keys: Vec<Key>,
    clock: u64,
    ticked: Option<u64>,
    said: u64,
    turn: Turn,
    own_turn: Turn,
    plant: Plant,
}

#[derive(Clone, Copy, Default)]
struct Turn {
    of_multiple: bool,
    multiple: u64,
}

/// All keys from 0 to N, of the last one.
pub fn chain(n: u64, drawn: Key) -> Vec<Key> {
    let mut keys = vec![drawn];
    for _ in 0..n {
        keys.push(previous(&keys[keys.len() - 1]));
    }
    keys.reverse();
    keys
}

impl Turn {
    /// The interval of the key that is disclosed, where keys up to `newest`, not 0, may be.
    fn next(&mut self, newest: u64, plant: Plant) -> u64 {
        if newest < 1024 {
            self.of_multiple ^= plant == Plant::TurnMovesEarly;
            return newest;
        }
        self.of_multiple = !self.of_multiple;
        if self.of_multiple {
            return newest;
        }
        if self.multiple + 1024 <= newest {
            self.multiple += 1024;
        } else if plant != Plant::NoRestart {
            self.multiple = 1024;
        }
        self.multiple
    }
}

impl Sender {
    /// `keys` are the chain from 0 to N.
    pub fn new(mut settings: Settings, keys: Vec<Key>, plant: Plant) -> Sender {
        settings.key0 = keys[0];
        let turn = Turn::default();
        Sender {
            settings,
            keys,
            clock: 0,
            ticked: None,
            said: 0,
            turn,
            own_turn: turn,
            plant,
        }
    }

    pub fn interval(&self) -> u64 {
        self.settings.interval(self.clock)
    }

    /// The newest key that may be disclosed; 0 if none may.
    fn newest(&self) -> u64 {
        let wait = if self.plant == Plant::DisclosedEarly {
            self.settings.d
        } else {
            self.settings.d + 1
        };
        self.interval().saturating_sub(wait).min(self.settings.n)
    }

    /// The key by itself that goes on the air, if one does; or a refusal.
    pub fn tick(&mut self, tick: u64) -> Result<Option<Vec<u8>>, u8> {
        if tick < self.clock {
            return Err(10);
        }
        let (now, last) = (self.settings.interval(tick), self.settings.n);
        if now != self.interval() && self.plant != Plant::IndexGoesOn {
            self.said = 0;
        }
        self.clock = tick;
        let again = self.ticked == Some(now) && self.plant != Plant::KeyEachTick;
        self.ticked = Some(now);
        let until = last + self.settings.d + if self.plant == Plant::EndAtLastPlusDelay { 0 } else { 1 };
        let newest = self.newest();
        if again || now > until || newest == 0 {
            return Ok(None);
        }
        let disclosed = if now > last && self.plant != Plant::LastByTurns {
            newest
        } else if self.plant == Plant::TurnsApart {
            self.own_turn.next(newest, self.plant)
        } else {
            self.turn.next(newest, self.plant)
        };
        Ok(Some(write_key(disclosed as u16, &self.keys[disclosed as usize])))
    }

    /// The message that goes on the air, or a refusal.
    pub fn say(&mut self, text: &[u8]) -> Result<Vec<u8>, u8> {
        if text.len() > 200 {
            return Err(1);
        }
        let now = self.interval();
        let most = if self.plant == Plant::SenderIndex64 { 65 } else { 64 };
        let newest = self.newest();
        if self.said >= most || now > self.settings.n {
            if self.plant == Plant::RefusedMovesTurn && newest > 0 {
                self.turn.next(newest, self.plant);
            }
            return Err(2);
        }
        let index = self.said as u8;
        self.said += 1;
        let (key_interval, key) = match newest {
            0 if self.plant == Plant::NoZeros => (0, self.keys[0]),
            0 => (0, [0; 32]),
            _ => {
                let j = self.turn.next(newest, self.plant);
                (j as u16, self.keys[j as usize])
            }
        };
        let tag = tag(&self.keys[now as usize], now as u16, index, text);
        Ok(Message {
            interval: now as u16,
            index,
            text: text.to_vec(),
            tag,
            key_interval,
            key,
        }
        .write())
    }
}
