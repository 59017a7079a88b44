// records BYTES WRITES: prints a file of commit records, of so many writes each, until it has so many bytes.
// The layout is written out here once more: this program shares nothing with the engine.
use std::io::{BufWriter, Write};

fn main() {
    let args: Vec<u64> = std::env::args().skip(1).map(|a| a.parse().expect("a number")).collect();
    let (bytes, writes) = (args[0], args[1] as u8);
    let mut out = BufWriter::with_capacity(1 << 20, std::io::stdout().lock());
    let mut seed: u64 = 42;
    let mut size = 0;
    let mut number: u32 = 0;
    while size < bytes {
        let mut record = vec![1];
        record.extend(number.to_be_bytes());
        record.push(writes);
        for _ in 0..writes {
            seed = seed.wrapping_mul(6364136223846793005).wrapping_add(1442695040888963407);
            record.extend(((seed >> 40) as u16 % 4096).to_be_bytes());
            record.extend(((seed >> 16) as u32 | 1).to_be_bytes());
        }
        out.write_all(&record).expect("written");
        size += record.len() as u64;
        number += 1;
    }
}
