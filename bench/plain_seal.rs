//! Datagrams sealed and opened in plain Rust, written for speed: beside chaos_seal. SHA-256 is unrolled, and the two blocks of the key
//! are hashed once.
#[path = "plain_seal/host.rs"]
mod host;

const K: [u32; 64] = [
    0x428a2f98, 0x71374491, 0xb5c0fbcf, 0xe9b5dba5, 0x3956c25b, 0x59f111f1, 0x923f82a4, 0xab1c5ed5, 0xd807aa98, 0x12835b01, 0x243185be,
    0x550c7dc3, 0x72be5d74, 0x80deb1fe, 0x9bdc06a7, 0xc19bf174, 0xe49b69c1, 0xefbe4786, 0x0fc19dc6, 0x240ca1cc, 0x2de92c6f, 0x4a7484aa,
    0x5cb0a9dc, 0x76f988da, 0x983e5152, 0xa831c66d, 0xb00327c8, 0xbf597fc7, 0xc6e00bf3, 0xd5a79147, 0x06ca6351, 0x14292967, 0x27b70a85,
    0x2e1b2138, 0x4d2c6dfc, 0x53380d13, 0x650a7354, 0x766a0abb, 0x81c2c92e, 0x92722c85, 0xa2bfe8a1, 0xa81a664b, 0xc24b8b70, 0xc76c51a3,
    0xd192e819, 0xd6990624, 0xf40e3585, 0x106aa070, 0x19a4c116, 0x1e376c08, 0x2748774c, 0x34b0bcb5, 0x391c0cb3, 0x4ed8aa4a, 0x5b9cca4f,
    0x682e6ff3, 0x748f82ee, 0x78a5636f, 0x84c87814, 0x8cc70208, 0x90befffa, 0xa4506ceb, 0xbef9a3f7, 0xc67178f2,
];
const FIRST: [u32; 8] = [0x6a09e667, 0xbb67ae85, 0x3c6ef372, 0xa54ff53a, 0x510e527f, 0x9b05688c, 0x1f83d9ab, 0x5be0cd19];

macro_rules! round {
    ($a:ident, $b:ident, $c:ident, $d:ident, $e:ident, $f:ident, $g:ident, $h:ident, $k:expr, $w:expr) => {
        let t = $h
            .wrapping_add($e.rotate_right(6) ^ $e.rotate_right(11) ^ $e.rotate_right(25))
            .wrapping_add($g ^ ($e & ($f ^ $g)))
            .wrapping_add($k)
            .wrapping_add($w);
        $d = $d.wrapping_add(t);
        $h = t
            .wrapping_add($a.rotate_right(2) ^ $a.rotate_right(13) ^ $a.rotate_right(22))
            .wrapping_add(($a & $b) | ($c & ($a | $b)));
    };
}

/// The schedule's next word, in the place of the oldest.
#[inline(always)]
fn next(w: &mut [u32; 16], i: usize) -> u32 {
    let (x, y) = (w[(i + 1) % 16], w[(i + 14) % 16]);
    let early = x.rotate_right(7) ^ x.rotate_right(18) ^ (x >> 3);
    let late = y.rotate_right(17) ^ y.rotate_right(19) ^ (y >> 10);
    w[i % 16] = w[i % 16].wrapping_add(early).wrapping_add(w[(i + 9) % 16]).wrapping_add(late);
    w[i % 16]
}

fn compress(state: &mut [u32; 8], block: &[u8; 64]) {
    let mut w: [u32; 16] = std::array::from_fn(|i| u32::from_be_bytes(block[4 * i..4 * i + 4].try_into().unwrap()));
    let [mut a, mut b, mut c, mut d, mut e, mut f, mut g, mut h] = *state;
    macro_rules! eight {
        ($i:expr, $word:expr) => {
            round!(a, b, c, d, e, f, g, h, K[$i], $word(&mut w, $i));
            round!(h, a, b, c, d, e, f, g, K[$i + 1], $word(&mut w, $i + 1));
            round!(g, h, a, b, c, d, e, f, K[$i + 2], $word(&mut w, $i + 2));
            round!(f, g, h, a, b, c, d, e, K[$i + 3], $word(&mut w, $i + 3));
            round!(e, f, g, h, a, b, c, d, K[$i + 4], $word(&mut w, $i + 4));
            round!(d, e, f, g, h, a, b, c, K[$i + 5], $word(&mut w, $i + 5));
            round!(c, d, e, f, g, h, a, b, K[$i + 6], $word(&mut w, $i + 6));
            round!(b, c, d, e, f, g, h, a, K[$i + 7], $word(&mut w, $i + 7));
        };
    }
    let given = |w: &mut [u32; 16], i: usize| w[i];
    eight!(0, given);
    eight!(8, given);
    eight!(16, next);
    eight!(24, next);
    eight!(32, next);
    eight!(40, next);
    eight!(48, next);
    eight!(56, next);
    for (old, new) in state.iter_mut().zip([a, b, c, d, e, f, g, h]) {
        *old = old.wrapping_add(new);
    }
}

/// The hash of a block that was hashed already, and of this text behind it.
fn hash_behind(block: &[u32; 8], text: &[u8]) -> [u8; 32] {
    let mut state = *block;
    let (blocks, rest) = text.as_chunks::<64>();
    for block in blocks {
        compress(&mut state, block);
    }
    let mut last = [0; 128];
    last[..rest.len()].copy_from_slice(rest);
    last[rest.len()] = 0x80;
    let end = if rest.len() < 56 { 64 } else { 128 };
    last[end - 8..end].copy_from_slice(&(8 * (64 + text.len() as u64)).to_be_bytes());
    for block in last[..end].as_chunks::<64>().0 {
        compress(&mut state, block);
    }
    let mut hash = [0; 32];
    for (place, word) in hash.chunks_exact_mut(4).zip(state) {
        place.copy_from_slice(&word.to_be_bytes());
    }
    hash
}

/// The key's two blocks, hashed.
struct Hashed {
    inner: [u32; 8],
    outer: [u32; 8],
}

impl host::Tags for Hashed {
    fn new(key: &[u8; host::KEY]) -> Self {
        let block = |pad: u8| {
            let mut state = FIRST;
            compress(&mut state, &std::array::from_fn(|i| pad ^ key.get(i).copied().unwrap_or(0)));
            state
        };
        Hashed { inner: block(0x36), outer: block(0x5c) }
    }

    fn tag(&mut self, text: &[u8]) -> [u8; 16] {
        hash_behind(&self.outer, &hash_behind(&self.inner, text))[..16].try_into().unwrap()
    }
}

fn main() {
    host::run::<Hashed>();
}
