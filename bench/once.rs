//! What one crc and one copy of some bytes cost, at the least: a yardstick for images.
//!
//!     once PIECE < BYTES
//!
//! It holds the bytes in pieces of PIECE bytes, each in memory of its own, as a copy holds its batches. Ten times it
//! copies them into one new buffer and takes the crc of that, sixteen bytes a step; it prints the best time in seconds.
mod crc;

use std::io::{Read, stdin};
use std::time::Instant;

fn copy_and_check(pieces: &[Vec<u8>], length: usize) -> u32 {
    let mut copied = Vec::with_capacity(length);
    for piece in pieces {
        copied.extend_from_slice(piece);
    }
    crc::by_sixteen_tables(&copied)
}

fn main() -> std::io::Result<()> {
    let piece: usize = std::env::args().nth(1).and_then(|word| word.parse().ok()).expect("once PIECE < BYTES");
    let mut bytes = Vec::new();
    stdin().read_to_end(&mut bytes)?;
    assert_eq!(crc::by_sixteen_tables(&bytes), crc::by_table(&bytes), "the two ways differ");
    let pieces: Vec<Vec<u8>> = bytes.chunks(piece).map(<[u8]>::to_vec).collect();
    let mut best = f64::INFINITY;
    for _ in 0..10 {
        let start = Instant::now();
        let check = copy_and_check(&pieces, bytes.len());
        best = best.min(start.elapsed().as_secs_f64());
        assert_eq!(check, crc::by_table(&bytes));
    }
    println!("{best:.4}");
    Ok(())
}
