//! Files in binary AIGER, by the format report of 2007: decoding and evaluation. Nothing here knows
//! sheets or records.
//!
//! The header is `aig M I L O A` with M = I + L + A. Variables are inputs, latches and gates, in that
//! order from 1, so no line defines them: L lines of next states and O lines of outputs follow, each one
//! literal. Behind them stand A gates of two differences each: a gate's own literal less its first
//! operand, and that less its second. A symbol table and a comment may end the file.

/// A decoded file. A literal is twice its variable, plus 1 where it is inverted; 0 is false.
#[derive(Clone, Debug, PartialEq, Eq)]
pub struct BinaryFile {
    pub inputs: u64,
    /// The next state of each latch.
    pub next_states: Vec<u64>,
    pub outputs: Vec<u64>,
    /// The operands of each gate, the larger one first.
    pub gates: Vec<[u64; 2]>,
    /// Symbol table and comment.
    pub tail: Vec<u8>,
}

/// What is not decoded yet.
struct Decoder<'a> {
    rest: &'a [u8],
}

impl<'a> Decoder<'a> {
    /// The next line without its line feed.
    fn line(&mut self) -> Option<&'a [u8]> {
        let end = self.rest.iter().position(|byte| *byte == b'\n')?;
        let line = &self.rest[..end];
        self.rest = &self.rest[end + 1..];
        Some(line)
    }

    /// M, I, L, O and A.
    fn header(&mut self) -> Option<[u64; 5]> {
        let words = self
            .line()?
            .strip_prefix(b"aig ")?
            .split(|byte| *byte == b' ');
        let numbers: Vec<u64> = words.map(decimal).collect::<Option<_>>()?;
        let in_limit = numbers.iter().all(|number| *number <= MAX_VARIABLE);
        numbers.try_into().ok().filter(|_| in_limit)
    }

    /// Lines of one literal each, none above `limit`.
    fn literals(&mut self, count: u64, limit: u64) -> Option<Vec<u64>> {
        let mut literals = Vec::new();
        for _ in 0..count {
            literals.push(decimal(self.line()?).filter(|literal| *literal <= limit)?);
        }
        Some(literals)
    }

    /// A difference: seven bits in each byte, the lowest first, the eighth bit in all but the last. The
    /// last of several bytes is not 0, for it would stand for nothing.
    fn difference(&mut self) -> Option<u64> {
        let length = 1 + self.rest.iter().take_while(|byte| **byte >= 0x80).count();
        if length > self.rest.len() || length > MAX_DIFFERENCE_BYTES {
            return None;
        }
        let (bytes, rest) = self.rest.split_at(length);
        self.rest = rest;
        if length > 1 && bytes[length - 1] == 0 {
            return None;
        }
        let low_bits = bytes.iter().map(|byte| u64::from(byte & 0x7F));
        Some(low_bits.rev().fold(0, |sum, bits| sum << 7 | bits))
    }

    /// The operands of a gate: the first is below the gate's own literal, the second not above the first.
    fn gate(&mut self, own: u64) -> Option<[u64; 2]> {
        let first_difference = self.difference().filter(|it| *it > 0)?;
        let first = own.checked_sub(first_difference)?;
        let second = first.checked_sub(self.difference()?)?;
        Some([first, second])
    }

    fn file(&mut self) -> Option<BinaryFile> {
        let [largest, inputs, latches, outputs, gates] = self.header()?;
        if largest != inputs + latches + gates {
            return None;
        }
        let limit = 2 * largest + 1;
        let next_states = self.literals(latches, limit)?;
        let output_literals = self.literals(outputs, limit)?;
        let mut gate_operands = Vec::new();
        for index in 0..gates {
            let own = 2 * (inputs + latches + 1 + index);
            gate_operands.push(self.gate(own)?);
        }
        let tail = self.rest.to_vec();
        let counts = [inputs, latches, outputs];
        tail_is_well_formed(&tail, counts).then_some(BinaryFile {
            inputs,
            next_states,
            outputs: output_literals,
            gates: gate_operands,
            tail,
        })
    }
}

/// The report names no limit of M; this one keeps all sums within 64 bits.
const MAX_VARIABLE: u64 = u32::MAX as u64;

/// Enough for the largest literal, 2M + 1.
const MAX_DIFFERENCE_BYTES: usize = 5;

/// A number of at most 64 bits, without leading zeros.
fn decimal(word: &[u8]) -> Option<u64> {
    let leading_zero = word.len() > 1 && word[0] == b'0';
    if leading_zero || !word.iter().all(u8::is_ascii_digit) {
        return None;
    }
    // No digit at all and a number too large are left to `parse`.
    std::str::from_utf8(word).ok()?.parse().ok()
}

/// Lines that name inputs, latches or outputs by their index, then a line `c` with anything behind it.
fn tail_is_well_formed(tail: &[u8], counts: [u64; 3]) -> bool {
    let mut decoder = Decoder { rest: tail };
    loop {
        if decoder.rest.is_empty() || decoder.rest.starts_with(b"c\n") {
            return true;
        }
        if decoder
            .line()
            .and_then(|line| symbol(line, counts))
            .is_none()
        {
            return false;
        }
    }
}

/// A symbol: a letter, an index, a space and a name.
fn symbol(line: &[u8], counts: [u64; 3]) -> Option<()> {
    let space = line.iter().position(|byte| *byte == b' ')?;
    let (place, name) = line.split_at(space);
    let (letter, index) = place.split_first()?;
    let count = counts[b"ilo".iter().position(|it| it == letter)?];
    (decimal(index)? < count && name.len() > 1).then_some(())
}

/// Decodes a file; none where it is not well formed.
pub fn decode(file: &[u8]) -> Option<BinaryFile> {
    Decoder { rest: file }.file()
}

/// The values of one evaluation, in the order of the file.
#[derive(Clone, Debug, PartialEq, Eq)]
pub struct FileValues {
    pub gates: Vec<bool>,
    pub next_states: Vec<bool>,
    pub outputs: Vec<bool>,
}

impl BinaryFile {
    /// The values for given inputs and latches, which must be as many as the file has.
    pub fn evaluate(&self, inputs: &[bool], latches: &[bool]) -> FileValues {
        let fed = [inputs.len() as u64, latches.len() as u64];
        assert_eq!(fed, [self.inputs, self.next_states.len() as u64]);
        let mut variables = [&[false], inputs, latches].concat();
        for [first, second] in &self.gates {
            let output = literal_value(&variables, *first) && literal_value(&variables, *second);
            variables.push(output);
        }
        let values = |literals: &[u64]| -> Vec<bool> {
            let value = |literal: &u64| literal_value(&variables, *literal);
            literals.iter().map(value).collect()
        };
        FileValues {
            next_states: values(&self.next_states),
            outputs: values(&self.outputs),
            gates: variables[1 + inputs.len() + latches.len()..].to_vec(),
        }
    }
}

/// The value of a literal, given the values of all variables; variable 0 is false.
fn literal_value(variables: &[bool], literal: u64) -> bool {
    variables[literal as usize / 2] != (literal % 2 == 1)
}
