// The two builds of this repository's opener, the small and the faster one, against a plain Rust opener over three plain Rust ciphers: with the box as a
// table, the same written for speed, and one for speed by a table of words. Sealed messages of every number of blocks, the same input, in turns in one run.
// Run it by `bench/builds/run`.
mod plain;
#[path = "../aes/tables.rs"]
mod tables;
#[path = "../aes/words.rs"]
mod words;

use plain::Session;
use std::time::Instant;

extern "C" {
    fn cloudgraze_small_open(
        key: &[u8; 16],
        nonce: &[u8; 5],
        minutes: u64,
        since: u64,
        time: u64,
        payload: &[u8; 512],
        len: usize,
        work: &mut [u8; 496],
    ) -> u64;
    fn cloudgraze_table_open(
        key: &[u8; 16],
        nonce: &[u8; 5],
        minutes: u64,
        since: u64,
        time: u64,
        payload: &[u8; 512],
        len: usize,
        work: &mut [u8; 496],
    ) -> u64;
}

const KEY: [u8; 16] = *b"\x2b\x7e\x15\x16\x28\xae\xd2\xa6\xab\xf7\x15\x88\x09\xcf\x4f\x3c";
const SESSION: Session = Session { nonce: [0x51, 0x52, 0x53, 0x54, 0x55], minutes: 5, since: 100 };
const TIME: u64 = 399;

struct Packet {
    bytes: [u8; 512],
    len: usize,
    blocks: usize,
}

// CAFEBABE, size, message, zero padding.
fn enveloped(message: &[u8]) -> Vec<u8> {
    let mut text = vec![0xBE, 0xBA, 0xFE, 0xCA];
    text.extend((message.len() as u16).to_le_bytes());
    text.extend(message);
    text.resize(text.len().div_ceil(16) * 16, 0);
    text
}

fn control(command: u8, payload: &[u8]) -> Vec<u8> {
    let size = (payload.len() as u16).to_le_bytes();
    [&[10, 0, 5, command, 0, size[0], size[1]], payload].concat()
}

// Messages of so many bytes: each type and command that may have them, and some that are refused.
fn messages(size: usize) -> Vec<Vec<u8>> {
    let fill = |n: usize| (0..n).map(|i| (i % 101) as u8).collect::<Vec<u8>>();
    let mut list = vec![[&[11, 0], &fill(size - 2)[..]].concat()];
    match size {
        2 => list.push(vec![4, 0]),
        4 => list.push(vec![2, 0, 44, 1]),
        7 => list.extend([control(72, &[]), control(80, &[])]),
        8 => list.extend([control(20, &[100]), control(72, &[0]), control(80, &[0])]),
        13 => list.push([&[3, 0, 1, 15], &fill(9)[..]].concat()),
        14 => list.extend([control(6, &[1, 1, 2, 3, 4, 5, 6]), control(71, &[2, 1, 3, 4, 5, 6, 60]), control(71, &[2, 1, 3, 4, 5, 6, 61])]),
        17 => list.push(control(70, &fill(10))),
        18 => list.push(control(70, &[2, 1, 3, 4, 0xC5, 6, 7, 8, 9, 10, 11])),
        _ => (),
    }
    if size >= 7 {
        list.push(control(12, &fill(size - 7)));
    }
    if size >= 13 {
        list.push(control(3, &[&[7, 0, 2, 1, 1, 0], &fill(size - 13)[..]].concat()));
    }
    if size >= 8 && size % 2 == 0 {
        list.push(control(21, &[&[((size - 8) / 2) as u8], &fill(size - 8)[..]].concat()));
    }
    list
}

fn packet(number: usize, text: &[u8]) -> Packet {
    let nonce = [number as u8, (number >> 8) as u8, 0xA5];
    let payload = plain::seal(&KEY, &SESSION.nonce, &nonce, text);
    let mut bytes = [0; 512];
    bytes[..payload.len()].copy_from_slice(&payload);
    Packet { bytes, len: payload.len(), blocks: text.len() / 16 }
}

// Every size from 2 to 490; of each twentieth message also one with another validation, one whose padding, where it has any, is not zero,
// and one with a key ID.
fn packets() -> Vec<Packet> {
    let mut list = Vec::new();
    for message in (2..=490).flat_map(messages) {
        let number = list.len();
        let text = enveloped(&message);
        list.push(packet(number, &text));
        if number % 20 == 0 {
            let (mut key, mut padding) = (text.clone(), text.clone());
            key[2] ^= 1;
            for (i, byte) in padding[6 + message.len()..].iter_mut().enumerate() {
                *byte = 0xFF - i as u8;
            }
            list.push(packet(number, &key));
            list.push(packet(number, &padding));
            list.push(packet(number, &text));
            list.last_mut().unwrap().bytes[3] = 1;
        }
    }
    list
}

// Each message is opened with a fresh session on every side, which remembers no packet nonce: 28 does not occur, though some have the same nonce.
fn small(p: &Packet, work: &mut [u8; 496]) -> u64 {
    unsafe { cloudgraze_small_open(&KEY, &SESSION.nonce, SESSION.minutes, SESSION.since, TIME, &p.bytes, p.len, work) }
}

fn faster(p: &Packet, work: &mut [u8; 496]) -> u64 {
    unsafe { cloudgraze_table_open(&KEY, &SESSION.nonce, SESSION.minutes, SESSION.since, TIME, &p.bytes, p.len, work) }
}

fn plain_rust(p: &Packet, work: &mut [u8; 496]) -> u64 {
    plain::open(plain::aes::apply_ctr, &KEY, &SESSION, TIME, &p.bytes[..p.len], work)
}

fn plain_words(p: &Packet, work: &mut [u8; 496]) -> u64 {
    plain::open(words::apply_ctr, &KEY, &SESSION, TIME, &p.bytes[..p.len], work)
}

fn plain_tables(p: &Packet, work: &mut [u8; 496]) -> u64 {
    plain::open(tables::apply_ctr, &KEY, &SESSION, TIME, &p.bytes[..p.len], work)
}

const OPENERS: [fn(&Packet, &mut [u8; 496]) -> u64; 5] = [small, faster, plain_rust, plain_words, plain_tables];

fn timed(list: &[&Packet], open: fn(&Packet, &mut [u8; 496]) -> u64) -> (f64, u64) {
    let mut work = [0; 496];
    let start = Instant::now();
    let sum = list.iter().fold(0u64, |sum, p| sum.wrapping_mul(31).wrapping_add(open(p, &mut work)));
    (start.elapsed().as_nanos() as f64, sum)
}

// Prints the least nanoseconds of each opener over the rounds, and gives the ratio faster/plain. The small build runs in each fifth round.
fn compare(what: &str, list: &[&Packet], rounds: usize) -> f64 {
    let mut least = [f64::MAX; 5];
    let (_, answers) = timed(list, plain_rust);
    for round in 0..rounds {
        for i in (round % 5 != 0) as usize..5 {
            let (time, sum) = timed(list, OPENERS[i]);
            assert_eq!(sum, answers, "answers differ");
            least[i] = least[i].min(time / list.len() as f64);
        }
    }
    let [a, b, c, d, e] = least;
    println!(
        "{what:>7}: {:4} messages, small {a:5.0} ns, faster {b:4.0}, plain {c:4.0}, by words {d:4.0}, by a table of words {e:4.0}; \
         faster/plain {:.2}, /by words {:.2}, /by a table of words {:.2}, small/plain {:.2}",
        list.len(),
        b / c,
        b / d,
        b / e,
        a / c
    );
    b / c
}

fn main() {
    let list = packets();
    let mut refused = 0;
    for p in &list {
        let opened = OPENERS.map(|open| {
            let mut work = [0xEE; 496];
            (open(p, &mut work), work)
        });
        for o in &opened {
            assert_eq!(o.0, opened[0].0, "answers differ");
            assert_eq!(o.1, opened[0].1, "work buffers differ");
        }
        refused += (opened[0].0 < 100) as usize;
    }
    println!("{} messages, {} of them refused: the same answers and work buffers", list.len(), refused);
    let mut largest = (0.0, 0);
    for n in 1..=31 {
        let some: Vec<_> = list.iter().filter(|p| p.blocks == n).collect();
        assert!(!some.is_empty(), "no messages");
        let ratio = compare(&format!("n = {n}"), &some, 2000);
        if ratio > largest.0 {
            largest = (ratio, n);
        }
    }
    compare("1 to 31", &list.iter().collect::<Vec<_>>(), 300);
    println!("largest faster/plain: {:.2}, at n = {}", largest.0, largest.1);
}
