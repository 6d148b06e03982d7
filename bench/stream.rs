//! Writes a generated Matrix Market text to standard output: `stream KIND ENTRIES [SEED]`.
//!
//! The dimensions are 2^60 by 2^60 and every count is 1 to 9. The kinds:
//! - `powerlaw`: edges of a recursive matrix (Chakrabarti, Zhan, Faloutsos, 2004; a = 0.57, b = c = 0.19, d = 0.05), about
//!   16 entries a vertex, with the vertices' numbers spread over the whole range by a bijection;
//! - `uniform`: rows and columns drawn evenly, so that practically all cells are distinct;
//! - `repeat`: 10,000 cells, drawn evenly;
//! - `onerow`: one row, with columns drawn evenly;
//! - `ordered`: distinct cells by row and then column, about four a row.
use std::io::{self, BufWriter, Write};

const BITS: u32 = 60;
const MASK: u64 = (1 << BITS) - 1;

/// xorshift64* (Vigna, 2016).
struct Random(u64);

impl Random {
    fn next(&mut self) -> u64 {
        self.0 ^= self.0 >> 12;
        self.0 ^= self.0 << 25;
        self.0 ^= self.0 >> 27;
        self.0.wrapping_mul(0x2545_F491_4F6C_DD1D)
    }

    fn index(&mut self) -> u64 {
        self.next() >> (64 - BITS)
    }
}

/// A bijection of the numbers of 60 bits: odd products and shifted sums.
fn spread(number: u64) -> u64 {
    let mut x = number;
    for factor in [0x9E37_79B9_7F4A_7C15, 0xBF58_476D_1CE4_E5B9, 0x94D0_49BB_1331_11EB_u64] {
        x = x.wrapping_mul(factor) & MASK;
        x ^= x >> 29;
    }
    x
}

fn powerlaw(random: &mut Random, scale: u32) -> (u64, u64) {
    let (mut row, mut col) = (0, 0);
    for _ in 0..scale {
        let quarter = random.next() >> 32;
        let share = |part: f64| (part * 4_294_967_296.0) as u64;
        let (r, c) = match quarter {
            q if q < share(0.57) => (0, 0),
            q if q < share(0.76) => (0, 1),
            q if q < share(0.95) => (1, 0),
            _ => (1, 1),
        };
        row = row << 1 | r;
        col = col << 1 | c;
    }
    (spread(row), spread(col))
}

fn main() -> io::Result<()> {
    let words: Vec<String> = std::env::args().collect();
    let kind = words.get(1).map_or("uniform", String::as_str);
    let entries: u64 = words.get(2).map_or(Ok(1_000_000), |w| w.parse()).expect("a number of entries");
    let seed: u64 = words.get(3).map_or(Ok(1), |w| w.parse()).expect("a seed");
    let mut random = Random(seed.wrapping_mul(0x9E37_79B9_7F4A_7C15) | 1);
    let scale = (entries / 16).max(2).ilog2();
    let mut output = BufWriter::with_capacity(1 << 16, io::stdout().lock());
    let size = 1u64 << BITS;
    writeln!(output, "%%MatrixMarket matrix coordinate integer general\n{size} {size} {entries}")?;
    for n in 0..entries {
        let (row, col) = match kind {
            "powerlaw" => powerlaw(&mut random, scale),
            "uniform" => (random.index(), random.index()),
            "repeat" => {
                let cell = random.next() % 10_000;
                (spread(cell), spread(cell + 10_000))
            }
            "onerow" => (7, random.index()),
            "ordered" => (n / 4 * 1_000_003, n % 4 * 1_000_003),
            _ => panic!("no such kind: {kind}"),
        };
        let count = random.next() % 9 + 1;
        writeln!(output, "{} {} {count}", row + 1, col + 1)?;
    }
    output.flush()
}
