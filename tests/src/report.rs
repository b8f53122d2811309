//! What was compared, and what differs.

#[derive(Default)]
pub struct Counts {
    pub runs: u64,
    pub inputs: u64,
    /// Outcomes of settings, of ticks and of what comes from the air, by their numbers.
    pub settings: [u64; 12],
    pub clock: [u64; 12],
    pub air: [u64; 12],
    /// Outcomes of keys behind messages that were taken up, and behind messages that were refused.
    pub behind: [u64; 12],
    pub behind_refused: [u64; 12],
    /// Outcomes of a listener's frames.
    pub frames: [u64; 12],
    /// Listeners whose deliveries were there before their input ended.
    pub flushed: u64,
    /// Scripts by their fault, and refusals of the sender.
    pub scripts: [u64; 12],
    pub deeds: [u64; 12],
    /// Messages and keys by themselves that were sent.
    pub sent: [u64; 2],
    pub delivered: u64,
    /// Receivers that 62 disclosures in a row brought back.
    pub brought_back: u64,
    pub steps: u64,
    pub bytes: u64,
}

/// The first difference, with the input that it came of.
pub struct Difference {
    pub what: String,
    /// What to replay it with: a listener's input or a speaker's script.
    pub input: Vec<u8>,
    pub program: &'static str,
}

pub fn hex(bytes: &[u8]) -> String {
    bytes.iter().map(|b| format!("{b:02x}")).collect()
}

fn numbers(of: &[u64; 12]) -> String {
    let seen = of.iter().enumerate().filter(|(_, n)| **n > 0);
    seen.map(|(k, n)| format!("{k}: {n}")).collect::<Vec<_>>().join(", ")
}

impl Counts {
    pub fn print(&self, part: &str, seconds: f64) {
        println!(
            "{part}: {} runs, {} inputs, {} bytes, {seconds:.1} s: nothing differs",
            self.runs, self.inputs, self.bytes
        );
        let by_number = [
            ("settings", &self.settings),
            ("clock", &self.clock),
            ("air", &self.air),
            ("keys behind messages", &self.behind),
            ("keys behind refused messages", &self.behind_refused),
            ("frames", &self.frames),
            ("scripts", &self.scripts),
            ("refusals of the sender", &self.deeds),
        ];
        for (name, of) in by_number {
            if of.iter().any(|n| *n > 0) {
                println!("  {name}, by number: {}", numbers(of));
            }
        }
        if self.sent != [0, 0] {
            println!("  sent: {} messages, {} keys by themselves", self.sent[0], self.sent[1]);
        }
        if self.brought_back > 0 {
            println!("  brought back by 62 disclosures: {}", self.brought_back);
        }
        if self.delivered > 0 {
            println!("  delivered: {}", self.delivered);
        }
        if self.steps > 0 {
            println!("  steps of the key chain: {}", self.steps);
        }
        if self.flushed > 0 {
            println!("  delivered before the input ended: {} listeners", self.flushed);
        }
    }

    /// Which outcomes were never met by a part.
    pub fn missing(&self, part: &str) -> Vec<String> {
        let air: (_, _, &[usize]) = ("air", &self.air, &[0, 1, 2, 3, 4, 5, 6, 7, 8, 9]);
        let asked: &[(&str, &[u64; 12], &[usize])] = match part {
            "receiver" => &[
                ("settings", &self.settings, &[0, 1, 11]),
                ("clock", &self.clock, &[0, 1, 10]),
                air,
                ("keys behind messages", &self.behind, &[0, 2, 8, 9]),
                ("keys behind refused messages", &self.behind_refused, &[0, 2, 8, 9]),
            ],
            "listener" => &[
                ("settings", &self.settings, &[0, 1, 11]),
                ("frames", &self.frames, &[0, 1, 2, 3, 4, 5, 6, 7, 8, 9, 10]),
            ],
            "speaker" => &[
                ("scripts", &self.scripts, &[0, 1, 10, 11]),
                ("refusals of the sender", &self.deeds, &[2]),
            ],
            _ => &[("air", &self.air, &[0, 3, 6, 7, 8])],
        };
        let mut out = vec![];
        for (name, of, which) in asked {
            out.extend(which.iter().filter(|k| of[**k] == 0).map(|k| format!("{name} {k}")));
        }
        out
    }
}
