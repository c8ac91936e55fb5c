//! A plain Rust line lister, as a user would write it: byte at a time, a running CRC by a table, buffered input and output.
use std::io::{self, BufWriter, Read, Write};

fn table() -> [u16; 256] {
    let mut t = [0u16; 256];
    for (i, entry) in t.iter_mut().enumerate() {
        let mut c = (i as u16) << 8;
        for _ in 0..8 {
            c = if c & 0x8000 != 0 { c << 1 ^ 0x1021 } else { c << 1 };
        }
        *entry = c;
    }
    t
}

enum Event {
    Nothing,
    Frame { wrapper: u8, len: usize },
    Refused { number: u8, place: usize },
}

struct Receiver {
    table: [u16; 256],
    inside: bool,
    escaped: bool,
    got: usize,
    size: usize,
    count: usize,
    crc: u16,
    store: [u8; 512],
}

impl Receiver {
    fn new() -> Self {
        Receiver { table: table(), inside: false, escaped: false, got: 0, size: 0, count: 0, crc: 0xFFFF, store: [0; 512] }
    }

    fn refuse(&mut self, number: u8) -> Event {
        self.inside = false;
        Event::Refused { number, place: self.count }
    }

    fn take(&mut self, b: u8) -> Event {
        self.got += 1;
        if self.got == 1 {
            self.size = b as usize;
            return Event::Nothing;
        }
        if self.got == 2 {
            self.size += (b as usize) << 8;
            if self.size < 5 || self.size > 512 {
                return self.refuse(3);
            }
            return Event::Nothing;
        }
        let at = self.got - 3;
        self.store[at] = b;
        if at + 2 < self.size {
            self.crc = self.crc << 8 ^ self.table[(self.crc >> 8 ^ b as u16) as usize];
        }
        if at + 1 < self.size {
            return Event::Nothing;
        }
        self.inside = false;
        let sent = self.store[at - 1] as u16 | (b as u16) << 8;
        if sent == self.crc {
            Event::Frame { wrapper: self.store[2], len: self.size - 5 }
        } else {
            Event::Refused { number: 4, place: self.count }
        }
    }

    fn receive(&mut self, b: u8) -> Event {
        if b == 0x7E {
            let event = if self.inside { Event::Refused { number: 1, place: self.count + 1 } } else { Event::Nothing };
            self.inside = true;
            self.escaped = false;
            self.got = 0;
            self.count = 1;
            self.crc = 0xFFFF;
            return event;
        }
        if !self.inside {
            return Event::Nothing;
        }
        self.count += 1;
        if self.escaped {
            self.escaped = false;
            return match b {
                0x3E | 0x1C => self.take(b ^ 0x40),
                _ => self.refuse(2),
            };
        }
        if b == 0x5C {
            self.escaped = true;
            return Event::Nothing;
        }
        self.take(b)
    }
}

fn main() -> io::Result<()> {
    let mut out = BufWriter::new(io::stdout().lock());
    let mut input = io::stdin().lock();
    let mut receiver = Receiver::new();
    let mut buf = vec![0u8; 65536];
    loop {
        let n = input.read(&mut buf)?;
        if n == 0 {
            break;
        }
        for &b in &buf[..n] {
            match receiver.receive(b) {
                Event::Nothing => {}
                Event::Frame { wrapper, len } => writeln!(out, "frame {wrapper} {len}")?,
                Event::Refused { number, place } => writeln!(out, "refused {number} {place}")?,
            }
        }
    }
    writeln!(out, "end")?;
    out.flush()
}
