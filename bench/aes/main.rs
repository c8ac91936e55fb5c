// The AES-128 of the small build against a plain Rust one, on the same input, in turns in one run.
// The plain one has the box as a table and uses no cipher instructions. Run it by `bench/aes/run`.
use std::hint::black_box;
use std::time::Instant;

extern "C" {
    fn cloudgraze_aes_expand_key(key: &[u8; 16], keys: &mut [[u8; 16]; 11]);
    fn cloudgraze_aes_encrypt_block(keys: &[[u8; 16]; 11], block: &mut [u8; 16]);
    fn cloudgraze_apply_ctr(key: &[u8; 16], packet_nonce: &[u8; 3], session_nonce: &[u8; 5], src: &[u8; 496], out: &mut [u8; 496]);
}

mod plain;

// The least nanoseconds that a batch of either took, the two in turns.
fn measure(batches: usize, mut ours: impl FnMut(), mut theirs: impl FnMut()) -> (f64, f64) {
    let mut least = (f64::MAX, f64::MAX);
    for _ in 0..batches {
        let start = Instant::now();
        ours();
        least.0 = least.0.min(start.elapsed().as_nanos() as f64);
        let start = Instant::now();
        theirs();
        least.1 = least.1.min(start.elapsed().as_nanos() as f64);
    }
    least
}

fn show(what: &str, (ours, theirs): (f64, f64), per: f64) {
    println!("{what}: ours {:.1} ns, plain Rust {:.1} ns, ratio {:.2}", ours / per, theirs / per, ours / theirs);
}

// A fixed stream of bytes.
fn bytes(seed: &mut u64) -> u8 {
    *seed = seed.wrapping_mul(6364136223846793005).wrapping_add(1442695040888963407);
    (*seed >> 56) as u8
}

fn main() {
    let mut seed = 1u64;
    let mut key = [0u8; 16];
    key.fill_with(|| bytes(&mut seed));
    let mut keys = [[0u8; 16]; 11];
    unsafe { cloudgraze_aes_expand_key(&key, &mut keys) };
    assert_eq!(keys, plain::expand_key(&key), "round keys differ");
    let (mut a, mut b) = (keys, keys);
    let t = measure(
        3000,
        || (0..400).for_each(|_| unsafe { cloudgraze_aes_expand_key(black_box(&key), &mut a) }),
        || (0..400).for_each(|_| b = plain::expand_key(black_box(&key))),
    );
    assert_eq!(a, b, "round keys differ");
    show("round keys of a key", t, 400.0);

    let mut blocks = [[0u8; 16]; 400];
    for b in blocks.iter_mut() {
        b.fill_with(|| bytes(&mut seed));
        let (mut x, mut y) = (*b, *b);
        unsafe { cloudgraze_aes_encrypt_block(&keys, &mut x) };
        plain::encrypt_block(&keys, &mut y);
        assert_eq!(x, y, "blocks differ");
    }
    let (mut a, mut b) = (blocks, blocks);
    let t = measure(
        3000,
        || a.iter_mut().for_each(|x| unsafe { cloudgraze_aes_encrypt_block(black_box(&keys), x) }),
        || b.iter_mut().for_each(|x| plain::encrypt_block(black_box(&keys), x)),
    );
    assert_eq!(a, b, "blocks differ");
    show("block under round keys", t, 400.0);

    let (pn, sn) = ([1, 2, 3], [4, 5, 6, 7, 8]);
    let mut src = [0u8; 496];
    src.fill_with(|| bytes(&mut seed));
    let (mut x, mut y) = ([0u8; 496], [0u8; 496]);
    let t = measure(
        3000,
        || (0..20).for_each(|_| unsafe { cloudgraze_apply_ctr(black_box(&key), &pn, &sn, &src, &mut x) }),
        || (0..20).for_each(|_| plain::apply_ctr(black_box(&key), &pn, &sn, &src, &mut y)),
    );
    assert_eq!(x, y, "counter mode differs");
    show("counter mode over 496 bytes", t, 20.0);
}
