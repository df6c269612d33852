//! Reading a model file and a sentence text, without allocation.

use crate::second::{Node, Relation};

/// A model as the steps take it: its rows after filling.
pub struct Chain {
    /// N.
    pub n: usize,
    /// A.
    pub a: u8,
    /// D.
    pub d: u32,
    /// The file's version.
    version: u8,
    /// The label masks.
    pub masks: [u16; 32],
    /// The weights, N in a row, one row after another.
    pub weights: [u64; 1_024],
}

impl Chain {
    /// A chain to read into.
    pub fn empty() -> Chain {
        Chain { n: 0, a: 0, d: 0, version: 0, masks: [0; 32], weights: [0; 1_024] }
    }
}

/// Two bytes, low byte first.
fn two(bytes: &[u8]) -> u16 {
    u16::from_le_bytes([bytes[0], bytes[1]])
}

/// Whether all bytes are zero.
fn zero(bytes: &[u8]) -> bool {
    bytes.iter().fold(0, |all, byte| all | byte) == 0
}

/// Whether a block has its check.
fn checked(block: &[u8]) -> bool {
    let weigh = |(place, &byte): (u32, &u8)| place.wrapping_mul(u32::from(byte));
    let sum = (1u32..).zip(&block[..510]).map(weigh).fold(0, u32::wrapping_add);
    sum % 65_521 == u32::from(two(&block[510..]))
}

/// Reads a model file. Refusals 2 to 5.
pub fn read_model(file: &[u8], chain: &mut Chain) -> Result<(), u8> {
    if file.is_empty() || file.len() > 3_072 || !file.len().is_multiple_of(512) {
        return Err(2);
    }
    if !file.chunks_exact(512).all(checked) {
        return Err(3);
    }
    if !head(&file[..512], chain) || file.len() / 512 != 1 + chain.n.div_ceil(7) {
        return Err(4);
    }
    let blocks = file.chunks_exact(512).enumerate().skip(1);
    if !blocks.fold(true, |right, (i, block)| right & rows(i, block, chain)) {
        return Err(4);
    }
    if fill(chain) {
        Ok(())
    } else {
        Err(5)
    }
}

/// Fills the empty rows of version 1; tells whether every row then adds up to D.
fn fill(chain: &mut Chain) -> bool {
    let (n, d, empty_rows) = (chain.n, u64::from(chain.d), chain.version == 1);
    let mut states = chain.weights[..n * n].chunks_exact_mut(n).enumerate();
    states.all(|(s, row)| {
        let sum = row.iter().fold(0u64, |sum, &weight| sum.wrapping_add(weight));
        if sum == 0 && empty_rows {
            row[s] = d;
        }
        sum == d || (sum == 0 && empty_rows)
    })
}

/// Reads the head block; tells whether it keeps to the layout.
fn head(block: &[u8], chain: &mut Chain) -> bool {
    chain.n = usize::from(block[1]);
    chain.a = block[2];
    chain.version = block[3];
    chain.d = u32::from(two(&block[4..]));
    let ranges = (1..=32).contains(&chain.n) && (1..=16).contains(&chain.a) && chain.d > 0;
    if !ranges || block[0] != 1 || chain.version > 1 || !zero(&block[6..8]) {
        return false;
    }
    let end = 8 + 2 * chain.n;
    let mut bits = 0;
    for (mask, bytes) in chain.masks.iter_mut().zip(block[8..end].chunks_exact(2)) {
        *mask = two(bytes);
        bits |= u32::from(*mask);
    }
    bits >> chain.a == 0 && zero(&block[end..510])
}

/// Reads the rows of block i; tells whether it keeps to the layout.
fn rows(i: usize, block: &[u8], chain: &mut Chain) -> bool {
    let n = chain.n;
    let first = 7 * (i - 1);
    let states = (n - first).min(7);
    let mut right = block[0] == 2 && usize::from(block[1]) == i;
    for s in 0..states {
        let row = &block[2 + 64 * s..66 + 64 * s];
        let place = &mut chain.weights[(first + s) * n..][..n];
        place.iter_mut().zip(row.chunks_exact(2)).for_each(|(weight, bytes)| *weight = two(bytes).into());
        right &= zero(&row[2 * n..]);
    }
    right && zero(&block[2 + 64 * states..510])
}

/// A sentence.
pub struct Text {
    /// n.
    pub letters: usize,
    /// Whether each letter is `E`.
    pub exists: [bool; 4],
    /// The nodes in written order.
    pub nodes: [Node; 64],
    /// How many nodes there are, even over 64.
    pub count: usize,
    /// The greatest label, counted from 1; 0 if there is none.
    pub labels: u8,
    /// At the place of a path's node, the variables that occur in the path: bit i for variable i + 1.
    pub named: [u8; 64],
    /// The variables that occurred so far in the path that is being read.
    occurred: u8,
    /// Whether row 7 applies.
    out_of_range: bool,
}

impl Text {
    /// A sentence to read into.
    pub fn empty() -> Text {
        let nodes = [Node::True; 64];
        let named = [0; 64];
        Text {
            letters: 0,
            exists: [false; 4],
            nodes,
            count: 0,
            labels: 0,
            named,
            occurred: 0,
            out_of_range: false,
        }
    }

    /// Puts down a node.
    fn put(&mut self, node: Node) {
        if let Some(place) = self.nodes.get_mut(self.count) {
            *place = node;
        }
        self.count += 1;
    }
}

/// Reads a sentence text. Refusals 6 to 8.
pub fn read_sentence(text: &[u8], into: &mut Text) -> Result<(), u8> {
    if text.len() > 400 {
        return Err(6);
    }
    (into.count, into.labels, into.occurred, into.out_of_range) = (0, 0, 0, false);
    let letters = text.iter().take_while(|&&byte| byte == b'A' || byte == b'E').count();
    if !(1..=4).contains(&letters) || text.get(letters) != Some(&b'.') {
        return Err(6);
    }
    into.letters = letters;
    into.exists.iter_mut().zip(&text[..letters]).for_each(|(exists, &byte)| *exists = byte == b'E');
    match formula(&text[letters + 1..], into) {
        Some([]) if into.out_of_range => Err(7),
        Some([]) if into.count > 64 => Err(8),
        Some([]) => Ok(()),
        _ => Err(6),
    }
}

/// Reads a state formula; gives what is left.
fn formula<'a>(text: &'a [u8], into: &mut Text) -> Option<&'a [u8]> {
    let (&first, rest) = text.split_first()?;
    let relation = match first {
        b'T' => {
            into.put(Node::True);
            return Some(rest);
        }
        b'a'..=b'p' => return label(first - b'a', rest, into),
        b'!' => {
            into.put(Node::Not);
            return formula(rest, into);
        }
        b'&' => {
            into.put(Node::And);
            return formula(formula(rest, into)?, into);
        }
        b'<' => Relation::Less,
        b'L' => Relation::AtMost,
        b'=' => Relation::Equal,
        b'G' => Relation::AtLeast,
        b'>' => Relation::Greater,
        _ => return None,
    };
    into.put(Node::Compare(relation));
    expression(expression(rest, into)?, into)
}

/// Reads the variable of a label.
fn label<'a>(label: u8, text: &'a [u8], into: &mut Text) -> Option<&'a [u8]> {
    let (&digit, rest) = text.split_first()?;
    if !(b'1'..=b'4').contains(&digit) {
        return None;
    }
    let variable = digit - b'0';
    into.labels = into.labels.max(label + 1);
    into.occurred |= 1 << (variable - 1);
    into.out_of_range |= usize::from(variable) > into.letters;
    into.put(Node::Label { label, variable });
    Some(rest)
}

/// Reads an expression; gives what is left.
fn expression<'a>(text: &'a [u8], into: &mut Text) -> Option<&'a [u8]> {
    let (&first, rest) = text.split_first()?;
    let node = match first {
        b'P' => {
            into.put(Node::Probability);
            return path(rest, into);
        }
        b'#' => {
            let (top, rest) = number(rest, b'/')?;
            let (bottom, rest) = number(rest, b';')?;
            into.out_of_range |= top > 65_535 || bottom == 0 || bottom > 65_535;
            into.put(Node::Constant { top, bottom });
            return Some(rest);
        }
        b'+' => Node::Sum,
        b'-' => Node::Difference,
        b'*' => Node::Product,
        _ => return None,
    };
    into.put(node);
    expression(expression(rest, into)?, into)
}

/// Reads a path and puts down which variables occur in it; gives what is left.
fn path<'a>(text: &'a [u8], into: &mut Text) -> Option<&'a [u8]> {
    let (&first, rest) = text.split_first()?;
    let (place, before) = (into.count, std::mem::take(&mut into.occurred));
    let rest = match first {
        b'X' => {
            into.put(Node::Next);
            formula(rest, into)?
        }
        b'U' => {
            let (from, rest) = number(rest, b',')?;
            let (to, rest) = number(rest, b':')?;
            into.out_of_range |= from > to || to > 60;
            into.put(Node::Until { from, to });
            formula(formula(rest, into)?, into)?
        }
        _ => return None,
    };
    if let Some(named) = into.named.get_mut(place) {
        *named = into.occurred;
    }
    into.occurred |= before;
    Some(rest)
}

/// Reads a number that a byte follows, and that byte.
fn number(text: &[u8], end: u8) -> Option<(u32, &[u8])> {
    let digits = text.iter().take_while(|byte| byte.is_ascii_digit()).count();
    if !(1..=5).contains(&digits) || (digits > 1 && text[0] == b'0') || text.get(digits) != Some(&end) {
        return None;
    }
    let value = text[..digits].iter().fold(0, |value, digit| 10 * value + u32::from(digit - b'0'));
    Some((value, &text[digits + 1..]))
}
