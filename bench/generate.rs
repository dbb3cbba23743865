//! Writes a stream of record batches to standard output.
//!
//!     generate BATCHES RECORDS KEYS VALUE_BYTES ORDER [NULL_PERCENT [TIME_STEP]]
//!
//! Each batch has RECORDS records of one of KEYS keys, and as its time TIME_STEP (0) times its number. ORDER is `in`,
//! `shuffled`, `reversed`, `evenodd` (all batches of even number, then the others) or `repeated` (each fourth batch is
//! sent twice). The same arguments give the same bytes.
#[allow(dead_code)]
mod crc;

use std::io::{BufWriter, Write, stdout};

/// A generator of numbers, the same everywhere.
struct Numbers(u64);

impl Numbers {
    fn next(&mut self) -> u64 {
        self.0 ^= self.0 << 13;
        self.0 ^= self.0 >> 7;
        self.0 ^= self.0 << 17;
        self.0.wrapping_mul(0x2545_f491_4f6c_dd1d) >> 11
    }

    fn below(&mut self, bound: u64) -> u64 {
        self.next() % bound
    }
}

fn push_varint(out: &mut Vec<u8>, value: i64) {
    let mut rest = ((value << 1) ^ (value >> 63)) as u64;
    while rest >= 0x80 {
        out.push(rest as u8 | 0x80);
        rest >>= 7;
    }
    out.push(rest as u8);
}

fn push_text(out: &mut Vec<u8>, text: Option<&[u8]>) {
    match text {
        Some(text) => {
            push_varint(out, text.len() as i64);
            out.extend_from_slice(text);
        }
        None => push_varint(out, -1),
    }
}

/// What the batches have in common.
struct Form {
    records: u64,
    keys: u64,
    value_bytes: usize,
    null_percent: u64,
    time_step: u64,
}

/// The batch with this number; every record's offset is its place in the stream in order.
fn batch(number: u64, form: &Form) -> Vec<u8> {
    let mut numbers = Numbers(0x9e37_79b9_7f4a_7c15 ^ (number + 1).wrapping_mul(0xd134_2543_de82_ef95));
    let mut bytes = Vec::new();
    bytes.extend_from_slice(&(number * form.records).to_be_bytes());
    bytes.extend_from_slice(&[0; 8]); // the length, and leader epoch 0
    bytes.push(2);
    bytes.extend_from_slice(&[0; 6]); // the crc, and no attributes
    bytes.extend_from_slice(&(form.records as u32 - 1).to_be_bytes());
    bytes.extend_from_slice(&(number * form.time_step).to_be_bytes().repeat(2)); // both timestamps
    bytes.extend_from_slice(&[0xff; 14]); // no producer
    bytes.extend_from_slice(&(form.records as u32).to_be_bytes());
    let mut body = Vec::new();
    for delta in 0..form.records {
        body.clear();
        body.extend_from_slice(&[0, 0]); // no attributes, and the batch's time
        push_varint(&mut body, delta as i64);
        push_text(&mut body, Some(format!("key{:07}", numbers.below(form.keys)).as_bytes()));
        if numbers.below(100) < form.null_percent {
            push_text(&mut body, None);
        } else {
            let value: Vec<u8> = (0..form.value_bytes).map(|_| b'a' + (numbers.next() % 26) as u8).collect();
            push_text(&mut body, Some(&value));
        }
        body.push(0); // no headers
        push_varint(&mut bytes, body.len() as i64);
        bytes.extend_from_slice(&body);
    }
    let length = (bytes.len() - 12) as u32;
    bytes[8..12].copy_from_slice(&length.to_be_bytes());
    let crc = crc::by_table(&bytes[21..]);
    bytes[17..21].copy_from_slice(&crc.to_be_bytes());
    bytes
}

/// The numbers of the batches as they are sent.
fn ordered(batches: u64, order: &str) -> Vec<u64> {
    let mut sent: Vec<u64> = (0..batches).collect();
    let mut numbers = Numbers(0x1234_5678_9abc_def1);
    match order {
        "in" => {}
        "reversed" => sent.reverse(),
        "evenodd" => sent.sort_by_key(|number| number % 2),
        "repeated" => {
            let again = (0..batches).step_by(4).map(|number| (number + numbers.below(batches - number), number));
            let mut places: Vec<(u64, u64)> = (0..batches).map(|number| (number, number)).chain(again).collect();
            places.sort();
            sent = places.into_iter().map(|(_, number)| number).collect();
        }
        "shuffled" => {
            for last in (1..sent.len()).rev() {
                sent.swap(last, numbers.below(last as u64 + 1) as usize);
            }
        }
        other => panic!("{other} is no order"),
    }
    sent
}

fn main() -> std::io::Result<()> {
    let words: Vec<String> = std::env::args().skip(1).collect();
    let number = |at: usize| words[at].parse::<u64>().expect("a number");
    let at_end = |at: usize| if words.len() > at { number(at) } else { 0 };
    let form = Form {
        records: number(1),
        keys: number(2),
        value_bytes: number(3) as usize,
        null_percent: at_end(5),
        time_step: at_end(6),
    };
    let mut out = BufWriter::with_capacity(1 << 20, stdout().lock());
    for sent in ordered(number(0), &words[4]) {
        out.write_all(&batch(sent, &form))?;
    }
    out.flush()
}
