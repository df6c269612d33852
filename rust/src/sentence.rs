//! Sentences and their texts.

use crate::raw::{self, Codes, Exists};
use crate::refusal::other_archive;
use crate::{Refusal, LETTERS, LONGEST_TEXT, NODES};

/// A letter of a sentence's prefix.
#[derive(Clone, Copy, Debug, PartialEq, Eq, Hash)]
pub enum Letter {
    /// `A`: for all states.
    ForAll,
    /// `E`: for some state.
    Exists,
}

/// Which of the five comparisons a comparison's node is.
#[derive(Clone, Copy, Debug, PartialEq, Eq, Hash)]
pub enum Relation {
    /// `<`
    Less,
    /// `L`
    AtMost,
    /// `=`
    Equal,
    /// `G`
    AtLeast,
    /// `>`
    Greater,
}

/// One node of a sentence.
#[derive(Clone, Copy, Debug, PartialEq, Eq, Hash)]
pub enum Node {
    /// State formula `T`.
    True,
    /// State formula: a label of a variable's state.
    Label {
        /// 0 for `a`, 15 for `p`.
        label: u8,
        /// The variable as written, 1 to 4.
        variable: u8,
    },
    /// State formula `!`; a state formula follows.
    Not,
    /// State formula `&`; two state formulas follow.
    And,
    /// State formula: a comparison; two expressions follow.
    Compare(Relation),
    /// Expression `P`; a path follows.
    Probability,
    /// Expression `#`: a constant.
    Constant {
        /// The number before the `/`.
        top: u32,
        /// The number after the `/`.
        bottom: u32,
    },
    /// Expression `+`; two expressions follow.
    Sum,
    /// Expression `-`; two expressions follow.
    Difference,
    /// Expression `*`; two expressions follow.
    Product,
    /// Path `X`; a state formula follows.
    Next,
    /// Path `U`; two state formulas follow.
    Until {
        /// The first moment of the window.
        from: u32,
        /// The last moment of the window.
        to: u32,
    },
}

/// The relations in the order of their codes.
const RELATIONS: [Relation; 5] =
    [Relation::Less, Relation::AtMost, Relation::Equal, Relation::AtLeast, Relation::Greater];

impl Node {
    /// The node's code: its tag, and the two numbers that it holds.
    fn code(self) -> [u32; 3] {
        match self {
            Node::True => [0, 0, 0],
            Node::Label { label, variable } => [1, label.into(), variable.into()],
            Node::Not => [2, 0, 0],
            Node::And => [3, 0, 0],
            Node::Compare(relation) => [4, relation as u32, 0],
            Node::Probability => [5, 0, 0],
            Node::Constant { top, bottom } => [6, top, bottom],
            Node::Sum => [7, 0, 0],
            Node::Difference => [8, 0, 0],
            Node::Product => [9, 0, 0],
            Node::Next => [10, 0, 0],
            Node::Until { from, to } => [11, from, to],
        }
    }

    /// The node of a code that the library gave.
    fn of_code(code: [u32; 3]) -> Node {
        match code {
            [0, ..] => Node::True,
            [1, label, variable] => Node::Label { label: label as u8, variable: variable as u8 },
            [2, ..] => Node::Not,
            [3, ..] => Node::And,
            [4, relation, _] => Node::Compare(RELATIONS[relation as usize]),
            [5, ..] => Node::Probability,
            [6, top, bottom] => Node::Constant { top, bottom },
            [7, ..] => Node::Sum,
            [8, ..] => Node::Difference,
            [9, ..] => Node::Product,
            [10, ..] => Node::Next,
            [11, from, to] => Node::Until { from, to },
            _ => other_archive(format_args!("the node {code:?}")),
        }
    }

    /// Whether the node is a path formula: `X` or `U`.
    ///
    /// ```
    /// use twolsken::read_sentence;
    ///
    /// let sentence = read_sentence(b"AA.=PXa1PU0,3:Ta2")?;
    /// assert_eq!(sentence.nodes.iter().filter(|node| node.is_path()).count(), 2);
    /// # Ok::<(), twolsken::Refusal>(())
    /// ```
    pub fn is_path(self) -> bool {
        matches!(self, Node::Next | Node::Until { .. })
    }
}

/// A prefix and a list of nodes in written order: what [`read_sentence`] returns and [`write_sentence`] takes.
#[derive(Clone, Debug, PartialEq, Eq)]
pub struct Sentence {
    /// The letters; the i-th binds variable i, counted from 1.
    pub prefix: Vec<Letter>,
    /// The nodes of the body, in written order.
    pub nodes: Vec<Node>,
}

impl Sentence {
    /// The sentence's text, by [`write_sentence`].
    ///
    /// # Errors
    /// 6 and 7 as [`write_sentence`].
    ///
    /// ```
    /// use twolsken::{Letter, Node, Sentence};
    ///
    /// let label = Node::Label { label: 0, variable: 1 };
    /// let sentence = Sentence { prefix: vec![Letter::ForAll], nodes: vec![Node::Not, label] };
    /// assert_eq!(sentence.to_text()?, "A.!a1");
    /// # Ok::<(), twolsken::Refusal>(())
    /// ```
    pub fn to_text(&self) -> Result<String, Refusal> {
        let mut text = [0; LONGEST_TEXT];
        let length = write_sentence(self, &mut text)?;
        Ok(text[..length].iter().copied().map(char::from).collect())
    }
}

/// Reads a sentence's text.
///
/// # Errors
/// 6, not in the grammar or over 400 bytes; 7, a number or variable out of its range; 8, over 64 nodes.
///
/// ```
/// use twolsken::{read_sentence, Letter, Node, Refusal};
///
/// let sentence = read_sentence(b"AE.&a1!b2")?;
/// assert_eq!(sentence.prefix, [Letter::ForAll, Letter::Exists]);
/// assert_eq!(sentence.nodes[2], Node::Not);
/// assert_eq!(read_sentence(b"AE.&a1"), Err(Refusal::Grammar));
/// # Ok::<(), Refusal>(())
/// ```
pub fn read_sentence(text: &[u8]) -> Result<Sentence, Refusal> {
    let (mut head, mut exists, mut codes) = ([0; 2], [0; LETTERS], [[0; 3]; NODES]);
    // SAFETY: the slice goes with its own length, and the arrays have the lengths that the function writes.
    Refusal::unless_zero(unsafe {
        raw::twolsken_read_sentence(text.as_ptr(), text.len(), &mut head, &mut exists, &mut codes)
    })?;
    let [letters, count] = head.map(|number| number as usize);
    let letter = |&flag: &u8| if flag == 0 { Letter::ForAll } else { Letter::Exists };
    Ok(Sentence {
        prefix: exists[..letters].iter().map(letter).collect(),
        nodes: codes[..count].iter().copied().map(Node::of_code).collect(),
    })
}

/// Writes a sentence's text to the front of `out` and returns its length, at most [`LONGEST_TEXT`]. Bytes past
/// it are unchanged.
///
/// # Errors
/// 6, no text of the grammar within 400 bytes spells it; 7, a number or variable out of its range; 14, `out` is
/// too short.
///
/// ```
/// use twolsken::{read_sentence, write_sentence, Refusal};
///
/// let sentence = read_sentence(b"A.GPXa1#1/4;")?;
/// let mut out = [0; 20];
/// assert_eq!(write_sentence(&sentence, &mut out), Ok(12));
/// assert_eq!(&out[..12], b"A.GPXa1#1/4;");
/// assert_eq!(write_sentence(&sentence, &mut out[..11]), Err(Refusal::OutputShort));
/// # Ok::<(), Refusal>(())
/// ```
pub fn write_sentence(sentence: &Sentence, out: &mut [u8]) -> Result<usize, Refusal> {
    // What has no room in the arrays is counted all the same, and is refused for it.
    let mut exists: Exists = [0; LETTERS];
    let letters = sentence.prefix.iter().map(|letter| u8::from(*letter == Letter::Exists));
    exists.iter_mut().zip(letters).for_each(|(place, flag)| *place = flag);
    let mut codes: Codes = [[0; 3]; NODES];
    codes.iter_mut().zip(&sentence.nodes).for_each(|(place, node)| *place = node.code());
    // SAFETY: the slice goes with its own length, and the arrays have the lengths that the function reads.
    Refusal::unless_written(unsafe {
        raw::twolsken_write_sentence(
            sentence.prefix.len() as u64,
            sentence.nodes.len() as u64,
            &exists,
            &codes,
            out.as_mut_ptr(),
            out.len(),
        )
    })
}
