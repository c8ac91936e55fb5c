// A plain AES-128 and its counter mode, written for speed: columns as words, the box and MixColumns in one table, two blocks at a time, and what
// the counter does not change computed once. No cipher instructions.

// The columns of a state, row 0 in the lowest byte.
type Words = [u32; 4];

const fn xtime(b: u8) -> u8 {
    (b << 1) ^ ((b >> 7) * 0x1b)
}

// For each byte the column 2s, s, s, 3s, twice, where s is its value in the box.
static TABLE: [u64; 256] = {
    let mut table = [0; 256];
    let (mut byte, mut inverse, mut n) = (1u8, 1u8, 0);
    while n < 256 {
        let s = 0x63 ^ inverse ^ inverse.rotate_left(1) ^ inverse.rotate_left(2) ^ inverse.rotate_left(3) ^ inverse.rotate_left(4);
        table[byte as usize] = u32::from_le_bytes([xtime(s), s, s, xtime(s) ^ s]) as u64 * 0x1_0000_0001;
        // One times 3, the other divided by 3; after the 255 powers of 3 comes 0, whose inverse counts as 0.
        byte ^= xtime(byte);
        inverse ^= inverse << 1;
        inverse ^= inverse << 2;
        inverse ^= inverse << 4;
        inverse ^= (inverse >> 7) * 9;
        if n == 254 {
            (byte, inverse) = (0, 0);
        }
        n += 1;
    }
    table
};

// The entry of the byte that a column has in a row.
#[inline(always)]
fn entry(column: u32, row: u32) -> u64 {
    TABLE[(column >> (8 * row)) as u8 as usize]
}

// What that byte adds to a column in MixColumns.
#[inline(always)]
fn mixed(column: u32, row: u32) -> u32 {
    (entry(column, row) >> ((32 - 8 * row) % 32)) as u32
}

// The values in the box of four bytes: of column i the byte in row i + turn.
#[inline(always)]
fn boxed(columns: Words, turn: u32) -> u32 {
    let at = |i: usize| entry(columns[i], (i as u32 + turn) % 4);
    (at(0) >> 8) as u32 & 0xff | at(1) as u32 & 0xff00 | at(2) as u32 & 0xff_0000 | (at(3) >> 16) as u32 & 0xff00_0000
}

#[inline(always)]
fn add(a: Words, b: Words) -> Words {
    [a[0] ^ b[0], a[1] ^ b[1], a[2] ^ b[2], a[3] ^ b[3]]
}

#[inline(always)]
fn round([a, b, c, d]: Words, key: Words) -> Words {
    let column = |a, b, c, d| mixed(a, 0) ^ mixed(b, 1) ^ mixed(c, 2) ^ mixed(d, 3);
    add([column(a, b, c, d), column(b, c, d, a), column(c, d, a, b), column(d, a, b, c)], key)
}

#[inline(always)]
fn last_round([a, b, c, d]: Words, key: Words) -> Words {
    add([boxed([a, b, c, d], 0), boxed([b, c, d, a], 0), boxed([c, d, a, b], 0), boxed([d, a, b, c], 0)], key)
}

// A round for each key, the last without MixColumns, on N states side by side. A `map` over the states would be slow.
#[inline(always)]
fn rounds<const N: usize>(mut states: [Words; N], keys: &[Words]) -> [Words; N] {
    for k in &keys[..keys.len() - 1] {
        for s in &mut states {
            *s = round(*s, *k);
        }
    }
    for s in &mut states {
        *s = last_round(*s, keys[keys.len() - 1]);
    }
    states
}

#[inline(always)]
fn words(b: &[u8; 16]) -> Words {
    let word = |i| u32::from_le_bytes([b[i], b[i + 1], b[i + 2], b[i + 3]]);
    [word(0), word(4), word(8), word(12)]
}

#[inline(always)]
fn store(w: Words, to: &mut [u8; 16]) {
    for (to, w) in to.chunks_exact_mut(4).zip(w) {
        to.copy_from_slice(&w.to_le_bytes());
    }
}

pub fn expand_key(key: &[u8; 16]) -> [Words; 11] {
    let mut keys = [words(key); 11];
    let mut c = 1u8;
    for n in 1..11 {
        let mut k = keys[n - 1];
        k[0] ^= boxed([k[3]; 4], 1) ^ c as u32;
        for j in 1..4 {
            k[j] ^= k[j - 1];
        }
        keys[n] = k;
        c = xtime(c);
    }
    keys
}

pub fn encrypt_block(keys: &[Words; 11], block: &mut [u8; 16]) {
    let [s] = rounds([add(words(block), keys[0])], &keys[1..]);
    store(s, block);
}

#[inline(never)]
pub fn apply_ctr(key: &[u8; 16], packet_nonce: &[u8; 3], session_nonce: &[u8; 5], src: &[u8], out: &mut [u8]) {
    let keys = expand_key(key);
    let len = src.len().min(out.len());
    // Of 256 blocks on end only the counter's last byte differs.
    for (high, (src, out)) in (0u64..).zip(src[..len].chunks(4096).zip(out[..len].chunks_mut(4096))) {
        let (p, s, c) = (packet_nonce, session_nonce, (high << 8).to_be_bytes());
        let mut block = [p[0], p[1], p[2], s[0], s[1], s[2], s[3], s[4], c[0], c[1], c[2], c[3], c[4], c[5], c[6], 0];
        // It changes one column in the first round, and that one adds to every column in the second.
        let start = add(words(&block), keys[0]);
        let first = round(start, keys[1]);
        let spread = |a| [mixed(a, 0), mixed(a, 3), mixed(a, 2), mixed(a, 1)];
        let fixed = add(round(first, keys[2]), spread(first[0]));
        let column = first[0] ^ mixed(start[3], 3);
        let second = |low: usize| add(fixed, spread(column ^ mixed(start[3] ^ (low as u32) << 24, 3)));

        let (src_blocks, src_rest) = src.as_chunks::<16>();
        let (out_blocks, out_rest) = out.as_chunks_mut::<16>();
        let (src_pairs, src_odd) = src_blocks.as_chunks::<2>();
        let (out_pairs, out_odd) = out_blocks.as_chunks_mut::<2>();
        for (n, (from, to)) in src_pairs.iter().zip(out_pairs).enumerate() {
            let [s, t] = rounds([second(2 * n), second(2 * n + 1)], &keys[3..]);
            store(add(s, words(&from[0])), &mut to[0]);
            store(add(t, words(&from[1])), &mut to[1]);
        }
        if let ([from], [to]) = (src_odd, out_odd) {
            let [s] = rounds([second(src_blocks.len() - 1)], &keys[3..]);
            store(add(s, words(from)), to);
        }
        if !src_rest.is_empty() {
            block[15] = src_blocks.len() as u8;
            encrypt_block(&keys, &mut block);
            out_rest.iter_mut().zip(src_rest).zip(block).for_each(|((o, s), b)| *o = s ^ b);
        }
    }
}
