//! Reads what `gzip` writes (RFC 1951 and 1952): the libraries that come with the package.

/// The bytes of a file of `gzip` that has nothing but them, no name for instance; `None` where it is damaged.
pub fn unpacked(file: &[u8]) -> Option<Vec<u8>> {
    let rest = file.strip_prefix(&[0x1f, 0x8b, 8, 0])?;
    let (packed, end) = rest.get(6..)?.split_last_chunk::<8>()?;
    let bytes = inflated(packed)?;
    let sums = [crc32(&bytes), u32::try_from(bytes.len()).ok()?];
    (sums.map(u32::to_le_bytes).concat() == end).then_some(bytes)
}

/// The sum that `gzip` has of bytes.
fn crc32(bytes: &[u8]) -> u32 {
    let table: [u32; 256] = std::array::from_fn(|byte| {
        (0..8).fold(byte as u32, |sum, _| (sum >> 1) ^ (0xedb8_8320 * (sum & 1)))
    });
    let next = |sum: u32, byte: &u8| (sum >> 8) ^ table[usize::from(sum as u8 ^ byte)];
    !bytes.iter().fold(u32::MAX, next)
}

/// Bits, the lowest of each byte first.
struct Bits<'a> {
    bytes: &'a [u8],
    at: usize,
}

impl Bits<'_> {
    fn bit(&mut self) -> Option<u16> {
        let byte = self.bytes.get(self.at / 8)?;
        let bit = (byte >> (self.at % 8)) & 1;
        self.at += 1;
        Some(bit.into())
    }

    /// A number of so many bits, at most 16.
    fn number(&mut self, count: u16) -> Option<u16> {
        (0..count).try_fold(0, |number, place| Some(number | (self.bit()? << place)))
    }

    /// Bytes as they are, from the next whole one on.
    fn stored(&mut self) -> Option<&[u8]> {
        let rest = self.bytes.get(self.at.div_ceil(8)..)?;
        let (head, rest) = rest.split_at_checked(4)?;
        let length = u16::from_le_bytes([head[0], head[1]]);
        if length != !u16::from_le_bytes([head[2], head[3]]) {
            return None;
        }
        let stored = rest.get(..length.into())?;
        self.at = 8 * (self.bytes.len() - rest.len() + stored.len());
        Some(stored)
    }
}

/// The longest code of a symbol.
const LONGEST: usize = 15;

/// A Huffman code: how many symbols have a code of each length, and all symbols in the order of their codes.
struct Code {
    counts: [u16; LONGEST + 1],
    symbols: Vec<u16>,
}

impl Code {
    /// The code in which each symbol has a length; 0 if it has none. `None` if there are too many of a length.
    fn of(lengths: &[u16]) -> Option<Code> {
        let mut counts = [0; LONGEST + 1];
        lengths
            .iter()
            .for_each(|length| counts[usize::from(*length)] += 1);
        let open = counts[1..].iter().try_fold(1_i32, |open, count| {
            let open = 2 * open - i32::from(*count);
            (open >= 0).then_some(open)
        });
        open?;
        let mut symbols: Vec<u16> = (0..lengths.len() as u16).collect();
        symbols.retain(|symbol| lengths[usize::from(*symbol)] > 0);
        symbols.sort_by_key(|symbol| lengths[usize::from(*symbol)]);
        Some(Code { counts, symbols })
    }

    fn symbol(&self, bits: &mut Bits<'_>) -> Option<u16> {
        let (mut code, mut first, mut before) = (0, 0, 0);
        for count in &self.counts[1..] {
            code |= bits.bit()?;
            if code < first + count {
                return self
                    .symbols
                    .get(usize::from(before + code - first))
                    .copied();
            }
            before += count;
            first = (first + count) << 1;
            code <<= 1;
        }
        None
    }
}

/// The symbol that ends a block; those after it are lengths.
const END: u16 = 256;

/// A number that is spelled as a symbol and more bits: after the first few symbols, each `step` of them has a bit more.
fn spelled(bits: &mut Bits<'_>, symbol: u16, step: u16) -> Option<usize> {
    let more = (symbol / step).saturating_sub(1);
    let base = if more == 0 {
        u32::from(symbol)
    } else {
        u32::from(step + symbol % step) << more
    };
    Some(base as usize + usize::from(bits.number(more)?))
}

/// Appends what a block of symbols means.
fn put_block(
    bits: &mut Bits<'_>,
    literals: &Code,
    distances: &Code,
    out: &mut Vec<u8>,
) -> Option<()> {
    loop {
        let symbol = literals.symbol(bits)?;
        if let Ok(byte) = u8::try_from(symbol) {
            out.push(byte);
            continue;
        }
        let length = match symbol {
            END => return Some(()),
            257..=284 => 3 + spelled(bits, symbol - 257, 4)?,
            285 => 258,
            _ => return None,
        };
        let symbol = distances.symbol(bits).filter(|symbol| *symbol < 30)?;
        let start = out.len().checked_sub(1 + spelled(bits, symbol, 2)?)?;
        // the end may be what this block writes
        for at in start..start + length {
            out.push(out[at]);
        }
    }
}

/// The order in which the lengths of the code of lengths are spelled.
const ORDER: [usize; 19] = [
    16, 17, 18, 0, 8, 7, 9, 6, 10, 5, 11, 4, 12, 3, 13, 2, 14, 1, 15,
];

/// The codes that a block begins with.
fn read_codes(bits: &mut Bits<'_>) -> Option<(Code, Code)> {
    let literals = 257 + usize::from(bits.number(5)?);
    let distances = 1 + usize::from(bits.number(5)?);
    let count = 4 + usize::from(bits.number(4)?);
    let mut of_lengths = [0; 19];
    for place in &ORDER[..count] {
        of_lengths[*place] = bits.number(3)?;
    }
    let code = Code::of(&of_lengths)?;
    let mut lengths = Vec::new();
    while lengths.len() < literals + distances {
        let (length, times) = match code.symbol(bits)? {
            16 => (*lengths.last()?, 3 + bits.number(2)?),
            17 => (0, 3 + bits.number(3)?),
            18 => (0, 11 + bits.number(7)?),
            length => (length, 1),
        };
        lengths.extend((0..times).map(|_| length));
    }
    if lengths.len() > literals + distances {
        return None;
    }
    let (literals, distances) = lengths.split_at(literals);
    Some((Code::of(literals)?, Code::of(distances)?))
}

/// The codes of a block that spells none.
fn fixed_codes() -> Option<(Code, Code)> {
    let lengths: Vec<u16> = (0..288)
        .map(|symbol| match symbol {
            0..144 => 8,
            144..256 => 9,
            256..280 => 7,
            _ => 8,
        })
        .collect();
    Some((Code::of(&lengths)?, Code::of(&[5; 30])?))
}

fn inflated(packed: &[u8]) -> Option<Vec<u8>> {
    let (mut bits, mut out) = (
        Bits {
            bytes: packed,
            at: 0,
        },
        Vec::new(),
    );
    loop {
        let is_last = bits.bit()? == 1;
        match bits.number(2)? {
            0 => out.extend_from_slice(bits.stored()?),
            1 => {
                let (literals, distances) = fixed_codes()?;
                put_block(&mut bits, &literals, &distances, &mut out)?;
            }
            2 => {
                let (literals, distances) = read_codes(&mut bits)?;
                put_block(&mut bits, &literals, &distances, &mut out)?;
            }
            _ => return None,
        }
        if is_last {
            return (bits.at.div_ceil(8) == packed.len()).then_some(out);
        }
    }
}
