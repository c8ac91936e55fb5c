// A plain AES-128 and its counter mode, written for speed with the box as a table: columns as words, MixColumns on the four bytes of a word at a time.
// No cipher instructions.
use crate::plain::aes::BOX;

// The columns of a state, row 0 in the lowest byte.
type Words = [u32; 4];

#[inline(always)]
fn boxed(a: u32, b: u32, c: u32, d: u32) -> u32 {
    let at = |column: u32, row: u32| BOX[(column >> (8 * row)) as u8 as usize];
    u32::from_le_bytes([at(a, 0), at(b, 1), at(c, 2), at(d, 3)])
}

// MixColumns of a column: 2a + 3b + c + d in each row is 2(a + b) + b + (c + d).
#[inline(always)]
fn mixed(s: u32) -> u32 {
    let sum = s ^ s.rotate_right(8);
    let twice = ((sum & 0x7f7f_7f7f) << 1) ^ ((sum >> 7) & 0x0101_0101).wrapping_mul(0x1b);
    twice ^ s.rotate_right(8) ^ sum.rotate_right(16)
}

#[inline(always)]
fn add(a: Words, b: Words) -> Words {
    [a[0] ^ b[0], a[1] ^ b[1], a[2] ^ b[2], a[3] ^ b[3]]
}

#[inline(always)]
fn words(b: &[u8; 16]) -> Words {
    let word = |i| u32::from_le_bytes([b[i], b[i + 1], b[i + 2], b[i + 3]]);
    [word(0), word(4), word(8), word(12)]
}

fn expand_key(key: &[u8; 16]) -> [Words; 11] {
    let mut keys = [words(key); 11];
    let mut constant = 1u8;
    for n in 1..11 {
        let mut k = keys[n - 1];
        let w = k[3].rotate_right(8);
        k[0] ^= boxed(w, w, w, w) ^ constant as u32;
        for j in 1..4 {
            k[j] ^= k[j - 1];
        }
        keys[n] = k;
        constant = (constant << 1) ^ ((constant >> 7) * 0x1b);
    }
    keys
}

#[inline(always)]
fn encrypt(keys: &[Words; 11], block: Words) -> Words {
    let mut s = add(block, keys[0]);
    for k in &keys[1..10] {
        let [a, b, c, d] = s;
        s = add([mixed(boxed(a, b, c, d)), mixed(boxed(b, c, d, a)), mixed(boxed(c, d, a, b)), mixed(boxed(d, a, b, c))], *k);
    }
    let [a, b, c, d] = s;
    add([boxed(a, b, c, d), boxed(b, c, d, a), boxed(c, d, a, b), boxed(d, a, b, c)], keys[10])
}

#[inline(never)]
pub fn apply_ctr(key: &[u8; 16], packet_nonce: &[u8; 3], session_nonce: &[u8; 5], src: &[u8], out: &mut [u8]) {
    let keys = expand_key(key);
    let (p, n) = (packet_nonce, session_nonce);
    for (counter, (from, to)) in (0u64..).zip(src.chunks(16).zip(out.chunks_mut(16))) {
        let c = counter.to_be_bytes();
        let block = words(&[p[0], p[1], p[2], n[0], n[1], n[2], n[3], n[4], c[0], c[1], c[2], c[3], c[4], c[5], c[6], c[7]]);
        let mut stream = [0; 16];
        for (four, word) in stream.chunks_exact_mut(4).zip(encrypt(&keys, block)) {
            four.copy_from_slice(&word.to_le_bytes());
        }
        for ((o, s), b) in to.iter_mut().zip(from).zip(stream) {
            *o = s ^ b;
        }
    }
}
