// Portable SHA-256 and HMAC in safe Rust, as RFC 6234 writes them.
#![no_std]
#![crate_type = "staticlib"]

#[panic_handler]
fn panic(_: &core::panic::PanicInfo) -> ! {
    loop {}
}

const K: [u32; 64] = [
    0x428a2f98, 0x71374491, 0xb5c0fbcf, 0xe9b5dba5, 0x3956c25b, 0x59f111f1, 0x923f82a4, 0xab1c5ed5,
    0xd807aa98, 0x12835b01, 0x243185be, 0x550c7dc3, 0x72be5d74, 0x80deb1fe, 0x9bdc06a7, 0xc19bf174,
    0xe49b69c1, 0xefbe4786, 0x0fc19dc6, 0x240ca1cc, 0x2de92c6f, 0x4a7484aa, 0x5cb0a9dc, 0x76f988da,
    0x983e5152, 0xa831c66d, 0xb00327c8, 0xbf597fc7, 0xc6e00bf3, 0xd5a79147, 0x06ca6351, 0x14292967,
    0x27b70a85, 0x2e1b2138, 0x4d2c6dfc, 0x53380d13, 0x650a7354, 0x766a0abb, 0x81c2c92e, 0x92722c85,
    0xa2bfe8a1, 0xa81a664b, 0xc24b8b70, 0xc76c51a3, 0xd192e819, 0xd6990624, 0xf40e3585, 0x106aa070,
    0x19a4c116, 0x1e376c08, 0x2748774c, 0x34b0bcb5, 0x391c0cb3, 0x4ed8aa4a, 0x5b9cca4f, 0x682e6ff3,
    0x748f82ee, 0x78a5636f, 0x84c87814, 0x8cc70208, 0x90befffa, 0xa4506ceb, 0xbef9a3f7, 0xc67178f2,
];

const INITIAL: [u32; 8] = [0x6a09e667, 0xbb67ae85, 0x3c6ef372, 0xa54ff53a, 0x510e527f, 0x9b05688c, 0x1f83d9ab, 0x5be0cd19];

fn compress(s: &mut [u32; 8], block: &[u8; 64]) {
    let mut w = [0u32; 64];
    for (word, bytes) in w.iter_mut().zip(block.chunks_exact(4)) {
        *word = u32::from_be_bytes([bytes[0], bytes[1], bytes[2], bytes[3]]);
    }
    for t in 16..64 {
        let (x, y) = (w[t - 2], w[t - 15]);
        let ssig1 = x.rotate_right(17) ^ x.rotate_right(19) ^ (x >> 10);
        let ssig0 = y.rotate_right(7) ^ y.rotate_right(18) ^ (y >> 3);
        w[t] = ssig1.wrapping_add(w[t - 7]).wrapping_add(ssig0).wrapping_add(w[t - 16]);
    }
    let [mut a, mut b, mut c, mut d, mut e, mut f, mut g, mut h] = *s;
    for t in 0..64 {
        let bsig1 = e.rotate_right(6) ^ e.rotate_right(11) ^ e.rotate_right(25);
        let ch = (e & f) ^ (!e & g);
        let t1 = h.wrapping_add(bsig1).wrapping_add(ch).wrapping_add(K[t]).wrapping_add(w[t]);
        let bsig0 = a.rotate_right(2) ^ a.rotate_right(13) ^ a.rotate_right(22);
        let maj = (a & b) ^ (a & c) ^ (b & c);
        let t2 = bsig0.wrapping_add(maj);
        h = g;
        g = f;
        f = e;
        e = d.wrapping_add(t1);
        d = c;
        c = b;
        b = a;
        a = t1.wrapping_add(t2);
    }
    for (x, y) in s.iter_mut().zip([a, b, c, d, e, f, g, h]) {
        *x = x.wrapping_add(y);
    }
}

fn finish(mut s: [u32; 8], before: u64, text: &[u8]) -> [u8; 32] {
    let (blocks, rest) = text.as_chunks::<64>();
    for block in blocks {
        compress(&mut s, block);
    }
    let bits = (before + text.len() as u64) * 8;
    let mut block = [0u8; 64];
    block[..rest.len()].copy_from_slice(rest);
    block[rest.len()] = 0x80;
    if rest.len() >= 56 {
        compress(&mut s, &block);
        block = [0; 64];
    }
    block[56..].copy_from_slice(&bits.to_be_bytes());
    compress(&mut s, &block);
    let mut out = [0; 32];
    for (bytes, word) in out.chunks_exact_mut(4).zip(s) {
        bytes.copy_from_slice(&word.to_be_bytes());
    }
    out
}

fn hmac(key: &[u8], text: &[u8]) -> [u8; 32] {
    let mut block = [0u8; 64];
    if key.len() <= 64 {
        block[..key.len()].copy_from_slice(key);
    } else {
        block[..32].copy_from_slice(&finish(INITIAL, 0, key));
    }
    let mut inner = INITIAL;
    compress(&mut inner, &block.map(|b| b ^ 0x36));
    let inner = finish(inner, 64, text);
    let mut outer = INITIAL;
    compress(&mut outer, &block.map(|b| b ^ 0x5c));
    finish(outer, 64, &inner)
}

#[unsafe(no_mangle)]
pub unsafe extern "C" fn rust_hmac(key: *const u8, key_len: usize, text: *const u8, len: usize, out: *mut [u8; 32]) {
    // The caller passes valid pointers and lengths.
    unsafe { *out = hmac(core::slice::from_raw_parts(key, key_len), core::slice::from_raw_parts(text, len)) }
}
