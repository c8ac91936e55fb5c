//! Times the capture decoder against the line lister over the same bytes in memory, in turns: a capture from each file, cut into pieces of
//! 65,536 bytes. Both must give the same events for each piece.
use std::hint::black_box;
use std::time::Instant;

const PIECE: usize = 65_536;

extern "C" {
    fn cloudgraze_decode_capture(s: *const u8, n: usize, list: *mut u64, entries: usize, buffer: *mut u8, bytes: usize, answer: *mut [u64; 3]);
    fn cloudgraze_list_capture(s: *const u8, n: usize, out: *mut u8, room: usize) -> usize;
}

/// The decoder's answer: the refusal's number or 0, entries, payload bytes.
fn decode(s: &[u8], list: &mut [u64], buffer: &mut [u8]) -> [u64; 3] {
    let mut answer = [0; 3];
    unsafe { cloudgraze_decode_capture(s.as_ptr(), s.len(), list.as_mut_ptr(), list.len(), buffer.as_mut_ptr(), buffer.len(), &mut answer) };
    answer
}

fn list(s: &[u8], out: &mut [u8]) -> usize {
    unsafe { cloudgraze_list_capture(s.as_ptr(), s.len(), out.as_mut_ptr(), out.len()) }
}

/// An entry as the lister's line.
fn line(entry: u64) -> String {
    let b = entry.to_le_bytes();
    let count = u16::from_le_bytes([b[1], b[2]]);
    match b[0] {
        5 => format!("frame {} {count}\n", b[5]),
        n => format!("refused {n} {count}\n"),
    }
}

fn timed<T>(work: impl FnOnce() -> T) -> f64 {
    let start = Instant::now();
    black_box(work());
    start.elapsed().as_nanos() as f64
}

fn main() {
    println!("{:8} {:>9} {:>11} {:>9} {:>7} {:>7}  events", "capture", "lister", "as long", "exact", "ratio", "ratio");
    for path in std::env::args().skip(1) {
        let capture = std::fs::read(&path).expect("a capture");
        let (mut entries, mut buffer, mut out) = (vec![0u64; PIECE], vec![0u8; PIECE], vec![0u8; 20 * PIECE]);
        let pieces: Vec<&[u8]> = capture.chunks_exact(PIECE).collect();
        let mut answers = Vec::new();
        for s in &pieces {
            let a = decode(s, &mut entries, &mut buffer);
            let n = list(s, &mut out);
            let lines: String = entries[..a[1] as usize].iter().map(|e| line(*e)).collect();
            assert!(a[0] == 0 && lines.as_bytes() == &out[..n], "{path}: other events");
            answers.push(a);
        }
        let mut least = [f64::MAX; 3];
        for _ in 0..15 {
            let mut sum = [0.0; 3];
            for (s, a) in pieces.iter().zip(&answers) {
                sum[0] += timed(|| list(s, &mut out));
                sum[1] += timed(|| decode(s, &mut entries, &mut buffer));
                sum[2] += timed(|| decode(s, &mut entries[..a[1] as usize], &mut buffer[..a[2] as usize]));
            }
            for i in 0..3 {
                least[i] = least[i].min(sum[i]);
            }
        }
        let [lister, long, exact] = least.map(|t| t / (PIECE * pieces.len()) as f64);
        let events: u64 = answers.iter().map(|a| a[1]).sum();
        let kind = path.rsplit('/').next().unwrap().trim_end_matches(".capture");
        println!("{kind:8} {lister:9.2} {long:11.2} {exact:9.2} {:7.2} {:7.2}  {events}", long / lister, exact / lister);
    }
}
