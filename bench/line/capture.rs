//! Makes a capture of a serial line: `capture KIND BYTES > FILE`. The numbers are pseudo-random with a fixed start, so each run makes the same bytes.
use std::io::{self, BufWriter, Write};

struct Random(u64);

impl Random {
    fn next(&mut self) -> u64 {
        self.0 ^= self.0 << 13;
        self.0 ^= self.0 >> 7;
        self.0 ^= self.0 << 17;
        self.0.wrapping_mul(0x2545F4914F6CDD1D)
    }

    fn below(&mut self, n: u64) -> u64 {
        (self.next() >> 11) % n
    }

    fn byte(&mut self) -> u8 {
        (self.next() >> 24) as u8
    }

    // A byte of noise: any but 7E.
    fn noise(&mut self) -> u8 {
        loop {
            let b = self.byte();
            if b != 0x7E {
                return b;
            }
        }
    }
}

fn crc(bytes: &[u8]) -> u16 {
    let mut c = 0xFFFFu16;
    for &b in bytes {
        c ^= (b as u16) << 8;
        for _ in 0..8 {
            c = if c & 0x8000 != 0 { c << 1 ^ 0x1021 } else { c << 1 };
        }
    }
    c
}

fn frame(wrapper: u8, payload: &[u8]) -> Vec<u8> {
    let mut body = vec![1, 0, wrapper];
    body.extend_from_slice(payload);
    let sum = crc(&body);
    body.extend_from_slice(&sum.to_le_bytes());
    let size = (body.len() as u16).to_le_bytes();
    let mut line = vec![0x7E];
    for &b in size.iter().chain(&body) {
        if b == 0x7E || b == 0x5C {
            line.push(0x5C);
            line.push(b ^ 0x40);
        } else {
            line.push(b);
        }
    }
    line
}

fn random_frame(r: &mut Random, most: u64) -> Vec<u8> {
    let len = r.below(most + 1) as usize;
    let payload: Vec<u8> = (0..len).map(|_| r.byte()).collect();
    frame(if r.below(2) == 0 { 0 } else { 128 }, &payload)
}

// One piece of a capture of this kind.
fn piece(kind: &str, r: &mut Random) -> Vec<u8> {
    match kind {
        // Frames of any length with noise between them, some damaged or cut.
        "mixed" => {
            let mut line = random_frame(r, 507);
            match r.below(50) {
                0 => {
                    let at = r.below(line.len() as u64) as usize;
                    line[at] ^= 1 << r.below(8);
                }
                1 => line.truncate(1 + r.below(line.len() as u64 - 1) as usize),
                2 => line.extend_from_slice(&[0x7E, 0x5C, 0x41]),
                _ => {}
            }
            for _ in 0..r.below(9) {
                line.push(r.noise());
            }
            line
        }
        // The longest frames, without a byte that is escaped in the payload.
        "long" => {
            let payload: Vec<u8> = (0..507).map(|_| r.byte() & 0x3F).collect();
            frame(0, &payload)
        }
        "short" => random_frame(r, 20),
        // No start byte at all.
        "quiet" => (0..1024).map(|_| r.noise()).collect(),
        "noise" => (0..1024).map(|_| r.byte()).collect(),
        // Start bytes alone: an event at each byte.
        "starts" => vec![0x7E; 1024],
        // Two payload bytes of three are escaped.
        "marks" => {
            let payload: Vec<u8> = (0..300).map(|i| if i % 3 == 0 { r.byte() } else { [0x7E, 0x5C][r.below(2) as usize] }).collect();
            frame(128, &payload)
        }
        _ => panic!("no such kind"),
    }
}

fn main() -> io::Result<()> {
    let args: Vec<String> = std::env::args().collect();
    let bytes: usize = args[2].parse().unwrap();
    let mut out = BufWriter::new(io::stdout().lock());
    let mut r = Random(0x9E3779B97F4A7C15);
    let mut done = 0;
    while done < bytes {
        let line = piece(&args[1], &mut r);
        out.write_all(&line)?;
        done += line.len();
    }
    out.flush()
}
