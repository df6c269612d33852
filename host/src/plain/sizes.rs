//! The size rule on a list of nodes.

use super::reading::Text;
use crate::second::Node;

/// The end of the size rule.
const END: u128 = 1 << 62;

/// Refusal 10.
pub fn allowed(text: &Text, d: u32) -> Result<(), u8> {
    Walk { text, at: 0, d }.formula().ok_or(10)
}

/// A sentence, and the place of its next node.
struct Walk<'a> {
    text: &'a Text,
    at: usize,
    d: u32,
}

impl Walk<'_> {
    /// Takes the next node.
    fn node(&mut self) -> Node {
        self.at += 1;
        self.text.nodes[self.at - 1]
    }

    /// Walks a state formula; nothing if the rule refuses it.
    fn formula(&mut self) -> Option<()> {
        match self.node() {
            Node::Not => self.formula(),
            Node::And => {
                self.formula()?;
                self.formula()
            }
            Node::Compare(_) => {
                let (d1, m1) = self.expression()?;
                let (d2, m2) = self.expression()?;
                (m1 * d2 <= END && m2 * d1 <= END).then_some(())
            }
            _ => Some(()),
        }
    }

    /// The denominator and the bound of an expression; nothing if the rule refuses it.
    fn expression(&mut self) -> Option<(u128, u128)> {
        let (d, m) = match self.node() {
            Node::Probability => {
                let d = self.path()?;
                (d, d)
            }
            Node::Constant { top, bottom } => (u128::from(bottom), u128::from(top)),
            node => {
                let (d1, m1) = self.expression()?;
                let (d2, m2) = self.expression()?;
                (d1 * d2, if node == Node::Product { m1 * m2 } else { m1 * d2 + m2 * d1 })
            }
        };
        (d <= END && m <= END).then_some((d, m))
    }

    /// The denominator of a path; nothing if the rule refuses it.
    fn path(&mut self) -> Option<u128> {
        let named = self.text.named[self.at].count_ones();
        let steps = match self.node() {
            Node::Until { to, .. } => {
                self.formula()?;
                to
            }
            _ => 1,
        };
        self.formula()?;
        let within = |&product: &u128| product <= END;
        (0..named * steps).try_fold(1, |product, _| Some(product * u128::from(self.d)).filter(within))
    }
}
