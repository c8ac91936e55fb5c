// A plain opener of encrypted messages, in normal mode with the admin key alone and encryption not required. It gives the numbers of
// crates/numbering/specs/Numbering.antt.
#[path = "../aes/plain.rs"]
mod aes;

pub struct Session {
    pub nonce: [u8; 5],
    pub minutes: u64,
    pub since: u64,
}

fn u16_at(s: &[u8], at: usize) -> u64 {
    u16::from_le_bytes([s[at], s[at + 1]]) as u64
}

fn u32_at(s: &[u8], at: usize) -> u64 {
    u32::from_le_bytes([s[at], s[at + 1], s[at + 2], s[at + 3]]) as u64
}

fn packed(a: u64, b: u64, c: u64) -> u64 {
    a + ((b & 0xFFFF) << 16) + ((c & 0xFFFF) << 32)
}

fn command(number: u64, q: &[u8]) -> Result<u64, u64> {
    let none = |tag| if q.is_empty() { Ok(packed(tag, 0, 0)) } else { Err(23) };
    match number {
        0 => Err(21),
        1 if q.len() != 4 => Err(23),
        1 if u32_at(q, 0) != 0xDEADBEEF => Err(24),
        1 => Ok(packed(1101, 0, 0)),
        2 if q.len() != 6 => Err(23),
        2 if q[4] > 2 || q[5] != 0 => Err(24),
        2 => Ok(packed(1102, u16_at(q, 0), u16_at(q, 2))),
        3 if q.len() < 6 => Err(23),
        3 if q[4] > 1 || q[5] != 0 => Err(24),
        3 => Ok(packed(1103, u16_at(q, 2), q.len() as u64 - 6)),
        6 if q.len() != 7 => Err(23),
        6 if q[0] > 1 => Err(24),
        6 => Ok(packed(1106, u32_at(q, 1), u16_at(q, 5))),
        4 | 5 | 10 | 11 | 12 | 13 | 72 | 80 => none(1100 + number),
        20 if q.len() != 1 => Err(23),
        20 if q[0] > 100 => Err(24),
        20 => Ok(packed(1120, q[0] as u64, 0)),
        21 if q.is_empty() || q.len() != 1 + 2 * q[0] as usize => Err(23),
        21 if q[1..].chunks_exact(2).any(|pair| pair[1] > 100) => Err(24),
        21 => Ok(packed(1121, q[0] as u64, q.len() as u64 - 1)),
        70 if q.len() != 11 => Err(23),
        70 => Ok(packed(1170, u16_at(q, 0), u16_at(q, 6))),
        71 if q.len() != 7 => Err(23),
        71 if q[6] > 60 => Err(24),
        71 => Ok(packed(1171, u16_at(q, 0), u16_at(q, 3))),
        _ => Err(20),
    }
}

fn control(p: &[u8]) -> Result<u64, u64> {
    if p.len() < 5 || p.len() as u64 != 5 + u16_at(p, 3) {
        return Err(18);
    }
    if p[0] != 5 {
        return Err(19);
    }
    command(u16_at(p, 1), &p[5..])
}

fn message(m: &[u8]) -> Result<u64, u64> {
    let d = &m[2..];
    match u16_at(m, 0) {
        0 | 1 | 4 => Err(16),
        2 if d.len() != 2 => Err(17),
        2 => Ok(packed(1002, u16_at(d, 0), 0)),
        3 if d.len() != 11 || d[0] > 1 || d[1] > 15 => Err(17),
        3 => Ok(packed(1003, d[0] as u64, d[1] as u64)),
        10 => control(d),
        11 if d.len() < 2 => Err(17),
        11 => Ok(packed(1011, u16_at(d, 0), d.len() as u64 - 2)),
        _ => Err(14),
    }
}

fn text(t: &[u8]) -> Result<u64, u64> {
    if u32_at(t, 0) != 0xCAFEBABE {
        return Err(11);
    }
    let end = 6 + u16_at(t, 4) as usize;
    if end < 8 || t.len() != end.div_ceil(16) * 16 {
        return Err(12);
    }
    message(&t[6..end])
}

#[inline(never)]
pub fn open(key: &[u8; 16], session: &Session, time: u64, payload: &[u8], work: &mut [u8; 496]) -> u64 {
    let blocks = payload.len().wrapping_sub(4) / 16;
    if payload.len() != 4 + 16 * blocks || !(1..=31).contains(&blocks) {
        return 7;
    }
    if payload[3] != 0 {
        return 10;
    }
    if time < session.since || (time - session.since) / 60 >= session.minutes {
        return 9;
    }
    let t = &mut work[..16 * blocks];
    aes::apply_ctr(key, &[payload[0], payload[1], payload[2]], &session.nonce, &payload[4..], t);
    text(t).unwrap_or_else(|refused| {
        t.fill(0);
        refused
    })
}

// The payload of a text that fills its blocks.
pub fn seal(key: &[u8; 16], nonce: &[u8; 5], packet_nonce: &[u8; 3], text: &[u8]) -> Vec<u8> {
    let mut payload = vec![0; 4 + text.len()];
    payload[..3].copy_from_slice(packet_nonce);
    aes::apply_ctr(key, packet_nonce, nonce, text, &mut payload[4..]);
    payload
}
