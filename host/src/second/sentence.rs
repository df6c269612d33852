//! The sentence text: its nodes, reading and writing
//! (document 01, 'The sentence text'; refusals 6, 7, 8 and 14).

/// The most bytes of a text.
pub const TEXT: usize = 400;
/// The most nodes of a sentence, and the places of its record.
pub const NODES: usize = 64;
/// The most letters of a prefix.
pub const LETTERS: usize = 4;

/// Which of the five comparisons a comparison's node is.
#[derive(Clone, Copy, Debug, PartialEq, Eq)]
pub enum Relation {
    /// `<`
    Less,
    /// `L`
    AtMost,
    /// `=`
    Equal,
    /// `G`
    AtLeast,
    /// `>`
    Greater,
}

/// One node of a sentence.
#[derive(Clone, Copy, Debug, PartialEq, Eq)]
pub enum Node {
    /// State formula `T`.
    True,
    /// State formula: a label of a variable's state.
    Label {
        /// 0 for `a`, 15 for `p`.
        label: u8,
        /// The variable as written, 1..4.
        variable: u8,
    },
    /// State formula `!`.
    Not,
    /// State formula `&`.
    And,
    /// State formula: a comparison of two expressions.
    Compare(Relation),
    /// Expression `P`.
    Probability,
    /// Expression `#`.
    Constant {
        /// The number before the `/`.
        top: u32,
        /// The number after the `/`.
        bottom: u32,
    },
    /// Expression `+`.
    Sum,
    /// Expression `-`.
    Difference,
    /// Expression `*`.
    Product,
    /// Path `X`.
    Next,
    /// Path `U`.
    Until {
        /// k1, the first moment of the window.
        from: u32,
        /// k2, the last moment of the window.
        to: u32,
    },
}

/// A prefix and a list of nodes in written order: what the reader returns and
/// the writer takes. Places past `letters` and past `count` are no part of it.
#[derive(Clone, Debug, PartialEq, Eq)]
pub struct Sentence {
    /// n, the number of letters of the prefix.
    pub letters: usize,
    /// Whether the i-th letter is `E`.
    pub exists: [bool; LETTERS],
    /// The number of nodes.
    pub count: usize,
    /// The nodes, in written order.
    pub nodes: [Node; NODES],
}

impl Sentence {
    /// The places of the path formulas among the nodes, in written order.
    pub fn path_places(&self) -> impl Iterator<Item = usize> + '_ {
        (0..self.count).filter(|&at| matches!(self.nodes[at], Node::Next | Node::Until { .. }))
    }
}

/// Reads a sentence text. Refusals 6, 7, 8.
pub fn read_sentence(text: &[u8]) -> Result<Sentence, u8> {
    if text.len() > TEXT {
        return Err(6);
    }
    let (prefix, list) = parsed(text).ok_or(6)?;
    if !list.iter().all(|&node| values_in_range(node, prefix.len())) {
        return Err(7);
    }
    if list.len() > NODES {
        return Err(8);
    }
    let mut sentence = Sentence {
        letters: prefix.len(),
        exists: [false; LETTERS],
        count: list.len(),
        nodes: [Node::True; NODES],
    };
    sentence.exists[..prefix.len()].copy_from_slice(&prefix);
    sentence.nodes[..list.len()].copy_from_slice(&list);
    Ok(sentence)
}

/// Writes a sentence's text to the front of `out` and tells its length. Refusals 6, 7, 14.
pub fn write_sentence(sentence: &Sentence, out: &mut [u8]) -> Result<usize, u8> {
    let prefix = sentence.exists.get(..sentence.letters).ok_or(6)?;
    let list = sentence.nodes.get(..sentence.count).ok_or(6)?;
    // If any text spells the list, it is this one; it spells it if reading gives the list back.
    let text = spelled(prefix, list);
    let back = parsed(&text).ok_or(6)?;
    if text.len() > TEXT || back.0 != prefix || back.1 != list {
        return Err(6);
    }
    if !list.iter().all(|&node| values_in_range(node, prefix.len())) {
        return Err(7);
    }
    let front = out.get_mut(..text.len()).ok_or(14)?;
    front.copy_from_slice(&text);
    Ok(text.len())
}

/// Row 7 for one node, under a prefix of `letters` letters.
fn values_in_range(node: Node, letters: usize) -> bool {
    match node {
        Node::Label { variable, .. } => usize::from(variable) <= letters,
        Node::Constant { top, bottom } => top <= 65_535 && (1..=65_535).contains(&bottom),
        Node::Until { from, to } => from <= to && to <= 60,
        _ => true,
    }
}

/// The prefix and the nodes of a text of the grammar, of any length.
fn parsed(text: &[u8]) -> Option<(Vec<bool>, Vec<Node>)> {
    let dot = text.iter().position(|&byte| byte == b'.')?;
    let (prefix, body) = (&text[..dot], &text[dot + 1..]);
    let is_letter = |&byte: &u8| byte == b'A' || byte == b'E';
    if !(1..=LETTERS).contains(&prefix.len()) || !prefix.iter().all(is_letter) {
        return None;
    }
    let mut reading = Reading { rest: body, list: Vec::new() };
    reading.formula()?;
    let exists = prefix.iter().map(|&byte| byte == b'E').collect();
    reading.rest.is_empty().then_some((exists, reading.list))
}

/// A text being read: what is left of it, and the nodes read so far.
struct Reading<'a> {
    rest: &'a [u8],
    list: Vec<Node>,
}

impl Reading<'_> {
    /// Takes the next byte.
    fn byte(&mut self) -> Option<u8> {
        let (&first, rest) = self.rest.split_first()?;
        self.rest = rest;
        Some(first)
    }

    /// Takes a number that is followed by the given byte, and that byte.
    fn number_then(&mut self, end: u8) -> Option<u32> {
        let digits = self.rest.iter().position(|byte| !byte.is_ascii_digit())?;
        let (number, rest) = self.rest.split_at(digits);
        if !(1..=5).contains(&digits) || (number[0] == b'0' && digits > 1) {
            return None;
        }
        self.rest = rest;
        if self.byte()? != end {
            return None;
        }
        std::str::from_utf8(number).ok()?.parse().ok()
    }

    /// Reads one state formula.
    fn formula(&mut self) -> Option<()> {
        let first = self.byte()?;
        let place = self.list.len();
        self.list.push(Node::True);
        self.list[place] = match first {
            b'T' => Node::True,
            b'a'..=b'p' => match self.byte()? {
                digit @ b'1'..=b'4' => Node::Label { label: first - b'a', variable: digit - b'0' },
                _ => return None,
            },
            b'!' => {
                self.formula()?;
                Node::Not
            }
            b'&' => {
                self.formula()?;
                self.formula()?;
                Node::And
            }
            _ => {
                let relation = relation_of(first)?;
                self.expression()?;
                self.expression()?;
                Node::Compare(relation)
            }
        };
        Some(())
    }

    /// Reads one expression.
    fn expression(&mut self) -> Option<()> {
        let node = match self.byte()? {
            b'P' => {
                self.list.push(Node::Probability);
                return self.path();
            }
            b'#' => {
                let top = self.number_then(b'/')?;
                let bottom = self.number_then(b';')?;
                self.list.push(Node::Constant { top, bottom });
                return Some(());
            }
            b'+' => Node::Sum,
            b'-' => Node::Difference,
            b'*' => Node::Product,
            _ => return None,
        };
        self.list.push(node);
        self.expression()?;
        self.expression()
    }

    /// Reads one path.
    fn path(&mut self) -> Option<()> {
        match self.byte()? {
            b'X' => {
                self.list.push(Node::Next);
                self.formula()
            }
            b'U' => {
                let from = self.number_then(b',')?;
                let to = self.number_then(b':')?;
                self.list.push(Node::Until { from, to });
                self.formula()?;
                self.formula()
            }
            _ => None,
        }
    }
}

/// The relation that a byte stands for.
fn relation_of(byte: u8) -> Option<Relation> {
    match byte {
        b'<' => Some(Relation::Less),
        b'L' => Some(Relation::AtMost),
        b'=' => Some(Relation::Equal),
        b'G' => Some(Relation::AtLeast),
        b'>' => Some(Relation::Greater),
        _ => None,
    }
}

/// The text of a prefix and a list of nodes, whatever they are: each node by
/// its characters, one after another. It is a text of the grammar only if they nest.
pub fn spelled(prefix: &[bool], list: &[Node]) -> Vec<u8> {
    let mut text: Vec<u8> = prefix.iter().map(|&exists| if exists { b'E' } else { b'A' }).collect();
    text.push(b'.');
    for &node in list {
        text.extend_from_slice(node_text(node).as_bytes());
    }
    text
}

/// The characters of one node. A label or variable outside its range gives a
/// character that the grammar does not have.
fn node_text(node: Node) -> String {
    match node {
        Node::True => "T".into(),
        Node::Label { label, variable } if label < 16 && (1..=4).contains(&variable) => {
            format!("{}{variable}", char::from(b'a' + label))
        }
        Node::Label { .. } => "?".into(),
        Node::Not => "!".into(),
        Node::And => "&".into(),
        Node::Compare(Relation::Less) => "<".into(),
        Node::Compare(Relation::AtMost) => "L".into(),
        Node::Compare(Relation::Equal) => "=".into(),
        Node::Compare(Relation::AtLeast) => "G".into(),
        Node::Compare(Relation::Greater) => ">".into(),
        Node::Probability => "P".into(),
        Node::Constant { top, bottom } => format!("#{top}/{bottom};"),
        Node::Sum => "+".into(),
        Node::Difference => "-".into(),
        Node::Product => "*".into(),
        Node::Next => "X".into(),
        Node::Until { from, to } => format!("U{from},{to}:"),
    }
}

#[cfg(test)]
mod tests {
    use super::*;

    fn refusal(text: &str) -> u8 {
        read_sentence(text.as_bytes()).err().unwrap_or(0)
    }

    #[test]
    fn the_refusals_of_the_examples() {
        assert_eq!(refusal("A.a2"), 7);
        assert_eq!(refusal("A.a5"), 6);
        assert_eq!(refusal(""), 6);
        assert_eq!(refusal("A.=PU0,60:TT#1/1;"), 0);
        assert_eq!(refusal("A.=PU0,61:TT#1/1;"), 7);
        assert_eq!(refusal(&format!("A.{}T", "!".repeat(63))), 0);
        assert_eq!(refusal(&format!("A.{}T", "!".repeat(64))), 8);
    }

    #[test]
    fn each_limit_on_both_sides() {
        for (text, expected) in [
            ("A.T", 0),
            ("EAEA.T", 0),
            ("EAEAE.T", 6),
            (".T", 6),
            ("AT", 6),
            ("B.T", 6),
            ("A.TT", 6),
            ("A.!", 6),
            ("A.p1", 0),
            ("A.q1", 6),
            ("A.a0", 6),
            ("AA.a2", 0),
            ("A.=#65535/65535;#0/1;", 0),
            ("A.=#65536/1;#0/1;", 7),
            ("A.=#99999/1;#0/1;", 7),
            ("A.=#100000/1;#0/1;", 6),
            ("A.=#1/65536;#0/1;", 7),
            ("A.=#1/0;#0/1;", 7),
            ("A.=#00/1;#0/1;", 6),
            ("A.=#01/1;#0/1;", 6),
            ("A.=#/1;#0/1;", 6),
            ("A.=#1/1#0/1;", 6),
            ("A.=PU3,3:TT#0/1;", 0),
            ("A.=PU4,3:TT#0/1;", 7),
            ("A.=PU0,99999:TT#0/1;", 7),
            ("A.=PU0,100000:TT#0/1;", 6),
            ("A.=PXT", 6),
            ("A.PXT", 6),
            ("A.=TT", 6),
        ] {
            assert_eq!(refusal(text), expected, "{text}");
        }
        assert_eq!(refusal(&format!("A.{}T", "!".repeat(397))), 8);
        assert_eq!(refusal(&format!("A.{}T", "!".repeat(398))), 6);
        assert_eq!(refusal(&format!("A.{}a2", "!".repeat(396))), 7);
        assert_eq!(read_sentence(b"A.\xd4"), Err(6));
    }

    #[test]
    fn a_sentence_read_is_its_prefix_and_nodes_in_written_order() {
        let sentence = read_sentence(b"AE.!GPU1,20:Tp2#3/4;").unwrap();
        assert_eq!((sentence.letters, sentence.count), (2, 7));
        assert_eq!(sentence.exists, [false, true, false, false]);
        let list = [
            Node::Not,
            Node::Compare(Relation::AtLeast),
            Node::Probability,
            Node::Until { from: 1, to: 20 },
            Node::True,
            Node::Label { label: 15, variable: 2 },
            Node::Constant { top: 3, bottom: 4 },
        ];
        assert_eq!(sentence.nodes[..7], list);
        assert!(sentence.nodes[7..].iter().all(|&node| node == Node::True));
    }

    #[test]
    fn writing_what_was_read_gives_the_same_text() {
        let text = b"AEAE.&!a1&>+*PXp4#65535/1;-PU0,60:TT#0/65535;PXT&<PXTPXTL#1/2;#1/2;";
        let sentence = read_sentence(text).unwrap();
        let mut out = [7; 401];
        assert_eq!(write_sentence(&sentence, &mut out), Ok(text.len()));
        assert_eq!(out[..text.len()], text[..]);
        assert!(out[text.len()..].iter().all(|&byte| byte == 7));
        assert_eq!(write_sentence(&sentence, &mut out[..text.len() - 1]), Err(14));
    }

    #[test]
    fn the_writer_refuses_by_6_then_7() {
        let good = read_sentence(b"A.=PU0,1:a1T#1/2;").unwrap();
        let refused = |change: &dyn Fn(&mut Sentence)| {
            let mut sentence = good.clone();
            change(&mut sentence);
            write_sentence(&sentence, &mut [0; 500]).err().unwrap_or(0)
        };
        assert_eq!(refused(&|s| s.nodes[6] = Node::Not), 0);
        assert_eq!(refused(&|s| s.exists[3] = true), 0);
        assert_eq!(refused(&|s| s.count = 5), 6);
        assert_eq!(refused(&|s| s.count = 7), 6);
        assert_eq!(refused(&|s| s.count = 65), 6);
        assert_eq!(refused(&|s| s.count = 0), 6);
        assert_eq!(refused(&|s| s.letters = 0), 6);
        assert_eq!(refused(&|s| s.letters = 5), 6);
        assert_eq!(refused(&|s| s.letters = usize::MAX), 6);
        assert_eq!(refused(&|s| s.nodes[3] = Node::Label { label: 16, variable: 1 }), 6);
        assert_eq!(refused(&|s| s.nodes[3] = Node::Label { label: 0, variable: 0 }), 6);
        assert_eq!(refused(&|s| s.nodes[3] = Node::Label { label: 0, variable: 5 }), 6);
        assert_eq!(refused(&|s| s.nodes[3] = Node::Label { label: 0, variable: 4 }), 7);
        assert_eq!(refused(&|s| s.nodes[5] = Node::Constant { top: 100_000, bottom: 1 }), 6);
        assert_eq!(refused(&|s| s.nodes[5] = Node::Constant { top: 99_999, bottom: 1 }), 7);
        assert_eq!(refused(&|s| s.nodes[5] = Node::Constant { top: 1, bottom: 0 }), 7);
        assert_eq!(refused(&|s| s.nodes[2] = Node::Until { from: 2, to: 1 }), 7);
        assert_eq!(refused(&|s| s.nodes[2] = Node::Until { from: 2, to: 100_000 }), 6);
        assert_eq!(refused(&|s| s.nodes[1] = Node::Sum), 6);
    }
}
