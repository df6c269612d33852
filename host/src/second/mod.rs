//! The second program. Each call is written from the document's words and
//! shares no code with the library: a record is checked by spelling it out and
//! comparing, a sentence becomes a tree, a numerator is a sum over runs.

pub mod meaning;
pub mod merge;
pub mod model;
pub mod sentence;

pub use meaning::{numerator, verdict};
pub use merge::merge;
pub use model::{read_model, write_model, Model};
pub use sentence::{read_sentence, write_sentence, Node, Relation, Sentence};
