//! Scripts of a sender, by chance: mostly without a fault.

use crate::random::Random;
use crate::report::hex;

fn line(text: &mut Vec<u8>, words: &str) {
    text.extend(words.as_bytes());
    text.push(b'\n');
}

/// A number as it may be written: with zeros before it, too.
fn digits(r: &mut Random, n: u64) -> String {
    let zeros = if r.once_in(30) { r.within(1, 25) } else { 0 };
    format!("{}{n}", "0".repeat(zeros as usize))
}

fn say(r: &mut Random, text: &mut Vec<u8>) {
    let n = match r.below(12) {
        0 => 0,
        1 => 200,
        2 => r.below(201),
        _ => r.below(16),
    } as usize;
    let mut said = r.bytes(n);
    if n > 0 && r.once_in(3) {
        let word = if r.once_in(2) {
            hex(&said)
        } else {
            hex(&said).to_uppercase()
        };
        return line(text, &format!("sayhex {word}"));
    }
    for b in &mut said {
        if *b == b'\n' || r.once_in(2) {
            *b = r.pick(b" \t\r#az09~\\\0");
        }
    }
    let front = if r.once_in(20) { "  " } else { "" };
    text.extend(format!("{front}say ").as_bytes());
    text.extend(said);
    text.push(b'\n');
}

/// A line that may be at fault, or may say nothing.
fn odd_line(r: &mut Random) -> Vec<u8> {
    let long = "ab".repeat(201);
    let just = "ab".repeat(200);
    let odd = [
        "",
        "   ",
        "# time 0",
        "  #",
        "say",
        "say ",
        " say  x ",
        "sayhex",
        "sayhex 0",
        "sayhex 0g",
        "sayhex 00 11",
        "sayhex Ff",
        "time",
        "time -1",
        "time +1",
        "time 1 2",
        "time 0",
        "time x",
        "time 18446744073709551616",
        "time 18446744073709551615",
        "time 99999999999999999999999",
        "settings 1 1 0 1",
        "settings 0 0 0 0",
        "settings 1 1 1 1",
        "settings 1 1 0",
        "drawn 00",
        "end",
        "end x",
        "play",
        "receivers 1",
        "clock 1 1",
        "bring 1 1",
        "bytes 1 00",
        "TIME 5",
        "says x",
        "time\t5",
        "time 5\r",
        "message 1",
        "\tsay x",
        "say\tx",
        "sayhexx 00",
        "  end  ",
        " # say",
        "#end",
    ];
    match r.below(9) {
        8 => format!("time {}", r.next() >> r.below(64)).into_bytes(),
        0 => format!("sayhex {long}").into_bytes(),
        1 => format!("sayhex {just}").into_bytes(),
        2 => format!("say {}", &long[..r.within(199, 202) as usize]).into_bytes(),
        3 => {
            let n = r.below(20) as usize;
            r.bytes(n)
        }
        _ => r.pick(&odd).as_bytes().to_vec(),
    }
}

fn numbers(r: &mut Random) -> [u64; 4] {
    let n = match r.below(3) {
        0 => r.pick(&[1, 2, 127, 128, 129, 255, 256, 257, 1030, 3000, 16383, 16384]),
        1 => r.within(1, 60),
        _ => {
            let (low, high) = r.pick(&[(1, 16384), (1000, 3500), (1, 700)]);
            r.within(low, high)
        }
    };
    let any = r.within(1, 3600);
    let s = r.pick(&[1, 1, 2, 7, 60, 3600, any]);
    let d = r.within(1, 8);
    let most = (s * d - 1) / 2;
    let any = r.within(0, most);
    let e = r.pick(&[0, most, any]);
    [s, d, e, n]
}

/// Deeds: the walk of the time, and texts.
fn deeds(r: &mut Random, [s, d, _, n]: [u64; 4], text: &mut Vec<u8>) {
    let walk = r.below(5);
    let busy = r.pick(&[0, 1, 1, 3]);
    let lines = r.pick(&[40, 300, 300, 4000]);
    let end = (n + d + 4) * s;
    let mut time = match r.below(4) {
        0 => 0,
        1 if n > 1024 => r.within(1000, n) * s,
        _ => r.below(end.min(20 * s)),
    };
    for _ in 0..r.below(3) {
        say(r, text);
    }
    for _ in 0..lines {
        if r.once_in(50) {
            let nothing = r.pick(&["", "    ", "# say", "   #end"]);
            line(text, nothing);
        }
        let word = digits(r, time);
        line(text, &format!("time {word}"));
        let many = match r.below(60) {
            0 => r.within(60, 70),
            _ => r.below(busy + 1),
        };
        for _ in 0..many {
            say(r, text);
        }
        let by = match walk {
            0 => s,
            1 => r.below(s + 1),
            2 => r.below(4 * s),
            3 => s * r.pick(&[1, 1, 1, 1, 127, 128, 129, 1024, 0]),
            _ => {
                let (left, any) = (s - time % s, r.below(end));
                r.pick(&[0, 1, s, left, left - 1, any])
            }
        };
        time = time.saturating_add(by);
        if time > end {
            if r.once_in(4) {
                time = r.pick(&[u64::MAX, u64::MAX - 1, time.saturating_mul(1000)]);
                line(text, &format!("time {time}"));
                say(r, text);
            }
            break;
        }
    }
}

pub fn script(r: &mut Random, faulty: bool) -> Vec<u8> {
    let mut settings = numbers(r);
    let mut text = vec![];
    if faulty && r.once_in(6) {
        let k = r.below(4) as usize;
        settings[k] = r.pick(&[
            0,
            settings[k] + 1,
            9,
            3600,
            3601,
            14400,
            16384,
            16385,
            65536,
            1 << 63,
            u64::MAX,
        ]);
    }
    let [s, d, e, n] = settings;
    let mut head = [s, d, e, n].map(|n| digits(r, n));
    if faulty && r.once_in(12) {
        let odd = [
            "18446744073709551617",
            "99999999999999999999999999",
            "-1",
            "+1",
            "1x",
            "0x1",
            "",
            "1 1",
        ];
        head[r.below(4) as usize] = r.pick(&odd).into();
    }
    if r.once_in(4) {
        line(&mut text, "# a sender's script");
    }
    line(
        &mut text,
        &format!("settings {} {} {}  {}", head[0], head[1], head[2], head[3]),
    );
    if faulty && r.once_in(12) {
        line(
            &mut text,
            &format!("drawn {}", hex(&[7; 33][..r.pick(&[0, 1, 31, 33])])),
        );
    } else {
        let word = hex(&r.key());
        line(
            &mut text,
            &format!("drawn {}", if r.once_in(4) { word.to_uppercase() } else { word }),
        );
    }
    let walked = if (1..=3600).contains(&s) && n <= 16384 {
        settings
    } else {
        [1, 1, 0, 5]
    };
    deeds(r, walked, &mut text);
    if !faulty {
        line(&mut text, "end");
        return text;
    }
    // Some odd lines among the others; and the end may be wanting, or not be the end.
    let mut lines: Vec<Vec<u8>> = text.split(|&b| b == b'\n').map(<[u8]>::to_vec).collect();
    for _ in 0..r.below(4) {
        let at = match r.below(4) {
            0 => r.below(4.min(lines.len() as u64)),
            1 => lines.len() as u64,
            _ => r.below(lines.len() as u64 + 1),
        };
        lines.insert(at as usize, odd_line(r));
    }
    // A time that mostly goes back.
    if r.once_in(5) {
        let word = format!("time {}", r.below(1000));
        lines.insert(
            r.within(lines.len() as u64 / 2, lines.len() as u64) as usize,
            word.into_bytes(),
        );
    }
    // A command that is right by itself, in another's place.
    if r.once_in(3) {
        let drawn = format!("drawn {}", hex(&r.key()));
        let right = ["end", "time 0", "say x", "sayhex 00", "settings 2 2 1 2", &drawn];
        let word = r.pick(&right).as_bytes().to_vec();
        lines.insert(r.below(5.min(lines.len() as u64)) as usize, word);
    }
    match r.below(6) {
        0 => {}
        1 => lines.extend([b"end".to_vec(), odd_line(r)]),
        2 => lines.push(b"end".to_vec()),
        _ => lines.extend([b"end".to_vec(), vec![]]),
    }
    text = lines.join(&b'\n');
    if r.once_in(12) {
        text.truncate(r.below(text.len() as u64 + 1) as usize);
    }
    text
}
