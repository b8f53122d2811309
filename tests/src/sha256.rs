//! SHA-256 and HMAC (RFC 6234), with the constants worked out: they are bits of the roots of primes.

const fn primes() -> [u128; 64] {
    let mut found = [0; 64];
    let (mut n, mut candidate) = (0, 2);
    while n < 64 {
        let (mut k, mut prime) = (0, true);
        while k < n {
            if candidate % found[k] == 0 {
                prime = false;
            }
            k += 1;
        }
        if prime {
            found[n] = candidate;
            n += 1;
        }
        candidate += 1;
    }
    found
}

/// The first 32 bits behind the point of the square root or the cube root of `p`.
const fn root_bits(p: u128, cube: bool) -> u32 {
    let (mut root, mut bit) = (0u128, 1u128 << 37);
    while bit > 0 {
        let r = root + bit;
        let fits = if cube { r * r * r <= p << 96 } else { r * r <= p << 64 };
        if fits {
            root = r;
        }
        bit >>= 1;
    }
    root as u32
}

const fn constants<const N: usize>(cube: bool) -> [u32; N] {
    let (mut out, mut i, p) = ([0; N], 0, primes());
    while i < N {
        out[i] = root_bits(p[i], cube);
        i += 1;
    }
    out
}

static START: [u32; 8] = constants(false);
static ROUND: [u32; 64] = constants(true);

fn compress(state: &mut [u32; 8], block: &[u8]) {
    let mut w = [0u32; 64];
    for t in 0..16 {
        w[t] = u32::from_be_bytes(block[4 * t..4 * t + 4].try_into().unwrap());
    }
    for t in 16..64 {
        let (x, y) = (w[t - 15], w[t - 2]);
        let s0 = x.rotate_right(7) ^ x.rotate_right(18) ^ (x >> 3);
        let s1 = y.rotate_right(17) ^ y.rotate_right(19) ^ (y >> 10);
        w[t] = s1.wrapping_add(w[t - 7]).wrapping_add(s0).wrapping_add(w[t - 16]);
    }
    let [mut a, mut b, mut c, mut d, mut e, mut f, mut g, mut h] = *state;
    for t in 0..64 {
        let s1 = e.rotate_right(6) ^ e.rotate_right(11) ^ e.rotate_right(25);
        let s0 = a.rotate_right(2) ^ a.rotate_right(13) ^ a.rotate_right(22);
        let choice = (e & f) ^ (!e & g);
        let majority = (a & b) ^ (a & c) ^ (b & c);
        let t1 = h
            .wrapping_add(s1)
            .wrapping_add(choice)
            .wrapping_add(ROUND[t])
            .wrapping_add(w[t]);
        let t2 = s0.wrapping_add(majority);
        (h, g, f, e, d, c, b, a) = (g, f, e, d.wrapping_add(t1), c, b, a, t1.wrapping_add(t2));
    }
    for (s, v) in state.iter_mut().zip([a, b, c, d, e, f, g, h]) {
        *s = s.wrapping_add(v);
    }
}

pub fn sha256(parts: &[&[u8]]) -> [u8; 32] {
    let mut text = parts.concat();
    let bits = text.len() as u64 * 8;
    text.push(0x80);
    while text.len() % 64 != 56 {
        text.push(0);
    }
    text.extend(bits.to_be_bytes());
    let mut state = START;
    for block in text.chunks(64) {
        compress(&mut state, block);
    }
    let mut out = [0; 32];
    for (o, s) in out.chunks_mut(4).zip(state) {
        o.copy_from_slice(&s.to_be_bytes());
    }
    out
}

pub fn hmac(key: &[u8], text: &[u8]) -> [u8; 32] {
    let mut block = [0u8; 64];
    if key.len() > 64 {
        block[..32].copy_from_slice(&sha256(&[key]));
    } else {
        block[..key.len()].copy_from_slice(key);
    }
    let inner = sha256(&[&block.map(|b| b ^ 0x36), text]);
    sha256(&[&block.map(|b| b ^ 0x5c), &inner])
}

/// Published vectors (FIPS 180-4's examples, RFC 4231): what differs, if any.
pub fn self_test() -> Result<(), &'static str> {
    let hex = |b: [u8; 32]| b.iter().map(|x| format!("{x:02x}")).collect::<String>();
    let abc = "ba7816bf8f01cfea414140de5dae2223b00361a396177a9cb410ff61f20015ad";
    let empty = "e3b0c44298fc1c149afbf4c8996fb92427ae41e4649b934ca495991b7852b855";
    let two = "248d6a61d20638b8e5c026930c3e6039a33ce45964ff2167f6ecedd419db06c1";
    let jefe = "5bdcc146bf60754e6a042426089575c75a003f089d2739839dec58b964ec3843";
    let long = "60e431591ee0b67f0d8a26aacbf5b77f8e0bc6213728c5140546040f0ee37f54";
    let checks = [
        (sha256(&[b"abc"]), abc, "SHA-256 of abc"),
        (sha256(&[]), empty, "SHA-256 of nothing"),
        (
            sha256(&[b"abcdbcdecdefdefgefghfghighijhijkijkljklmklmnlmnomnopnopq"]),
            two,
            "SHA-256 of two blocks",
        ),
        (hmac(b"Jefe", b"what do ya want for nothing?"), jefe, "HMAC, case 2"),
        (
            hmac(&[0xaa; 131], b"Test Using Larger Than Block-Size Key - Hash Key First"),
            long,
            "HMAC, case 6",
        ),
    ];
    for (got, published, name) in checks {
        if hex(got) != published {
            return Err(name);
        }
    }
    Ok(())
}
