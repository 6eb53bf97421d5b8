// Document 02's request 10 in plain Rust: reads what cheaper_draws reads and writes what it writes.
use std::io::{self, BufRead, Write};

const LONGEST: usize = 16384;
const MOST_PIECES: u64 = 64;
const END: &str = "one blank and a number, or the end of the line";

type Piece = [u32; 18];

struct Wrong {
    expected: String,
    at: usize,
}

struct Words<'a> {
    line: &'a [u8],
    at: usize,
}

impl Words<'_> {
    fn number(&mut self, most: u64) -> Result<u64, Wrong> {
        let word: Vec<u8> = self.line[self.at..].iter().copied().take_while(u8::is_ascii_digit).collect();
        let plain = word.len() == 1 || word.first() != Some(&b'0');
        let value = std::str::from_utf8(&word).ok().and_then(|w| w.parse::<u64>().ok());
        let Some(value) = value.filter(|&v| plain && v <= most) else {
            return Err(Wrong { expected: format!("a number from 0 to {most}"), at: self.at });
        };
        self.at += word.len();
        match &self.line[self.at..] {
            [] => Ok(value),
            [b' ', _, ..] => {
                self.at += 1;
                Ok(value)
            }
            _ => Err(self.not_at_end()),
        }
    }

    fn not_at_end(&self) -> Wrong {
        Wrong { expected: END.to_string(), at: self.at }
    }
}

fn parse(line: &[u8]) -> Result<(u32, Vec<Piece>), Wrong> {
    if line.len() > LONGEST {
        return Err(Wrong { expected: END.to_string(), at: LONGEST });
    }
    let mut words = Words { line, at: 0 };
    let budget = words.number(u32::MAX.into())? as u32;
    let count = words.number(MOST_PIECES)?;
    let mut pieces = Vec::new();
    for _ in 0..count {
        let mut piece = [0; 18];
        for thing in &mut piece {
            *thing = words.number(u32::MAX.into())? as u32;
        }
        pieces.push(piece);
    }
    if words.at < line.len() {
        return Err(words.not_at_end());
    }
    Ok((budget, pieces))
}

/// The next order in dictionary order, in place; false after the last.
fn next_permutation(order: &mut [usize]) -> bool {
    let Some(i) = order.windows(2).rposition(|w| w[0] < w[1]) else {
        return false;
    };
    let j = order.iter().rposition(|&x| x > order[i]).unwrap();
    order.swap(i, j);
    order[i + 1..].reverse();
    true
}

fn between(a: &Piece, b: &Piece) -> u32 {
    a.iter().zip(b).map(|(x, y)| u32::from(x != y)).sum()
}

fn price(pieces: &[Piece], order: &[usize]) -> u32 {
    order.windows(2).map(|w| between(&pieces[w[0]], &pieces[w[1]])).sum()
}

fn floor(pieces: &[Piece]) -> usize {
    (0..18)
        .map(|t| {
            let mut values: Vec<u32> = pieces.iter().map(|p| p[t]).collect();
            values.sort_unstable();
            values.dedup();
            values.len().saturating_sub(1)
        })
        .sum()
}

fn cheapest(pieces: &[Piece], budget: u32) -> (u32, Vec<usize>) {
    let mut order: Vec<usize> = (0..pieces.len()).collect();
    let mut best = (price(pieces, &order), order.clone());
    let mut tried = 1;
    while tried < budget && next_permutation(&mut order) {
        let price = price(pieces, &order);
        if price < best.0 {
            best.0 = price;
            best.1.copy_from_slice(&order);
        }
        tried += 1;
    }
    best
}

fn main() -> io::Result<()> {
    let mut out = io::BufWriter::new(io::stdout().lock());
    for (i, line) in io::stdin().lock().split(b'\n').enumerate() {
        match parse(&line?) {
            Err(Wrong { expected, at }) => {
                writeln!(out, "error: line {}: expected {expected} at character {}", i + 1, at + 1)?;
                break;
            }
            Ok((_, pieces)) if pieces.len() > 8 => writeln!(out, "refused 13")?,
            Ok((0, _)) => writeln!(out, "refused 14")?,
            Ok((budget, pieces)) => {
                let (price, order) = cheapest(&pieces, budget);
                write!(out, "price {price} floor {} order", floor(&pieces))?;
                for place in order {
                    write!(out, " {place}")?;
                }
                writeln!(out)?;
            }
        }
    }
    out.flush()
}
