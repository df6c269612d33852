//! Models and their files.

use crate::raw::{self, Masks, Rows};
use crate::{Refusal, LONGEST_FILE, STATES};

/// A Markov chain with whole-number weights: what [`read_model`] returns and [`write_model`] takes.
///
/// Masks, rows and columns from N on are zero. An empty row is one that is zero in all its weights; in version 1 it
/// counts as weight D to the state itself, which is halted.
#[derive(Clone, Debug, PartialEq, Eq)]
pub struct Model {
    /// N, the number of states, 1 to 32.
    pub n: u32,
    /// A, the number of labels, 1 to 16.
    pub a: u32,
    /// D, to which each row that is not empty adds up, 1 to 65,535.
    pub d: u32,
    /// The version of the file: 0, or 1 with empty rows allowed.
    pub version: u32,
    /// The label mask of each state: bit 0 for label `a`, bit 15 for label `p`.
    pub masks: Masks,
    /// The weight from state s to state t in row s, column t, as it stands in the file: an empty row is empty here.
    pub weights: Rows,
}

impl Model {
    /// A record with every number zero, to be filled: of version 0, and no model yet.
    ///
    /// ```
    /// use twolsken::Model;
    ///
    /// let mut model = Model { n: 2, a: 1, d: 4, ..Model::empty() };
    /// model.masks[1] = 1;
    /// model.weights[0][..2].copy_from_slice(&[3, 1]);
    /// model.weights[1][..2].copy_from_slice(&[0, 4]);
    /// assert!(model.to_file().is_ok());
    /// ```
    pub fn empty() -> Model {
        Model { n: 0, a: 0, d: 0, version: 0, masks: [0; STATES], weights: [[0; STATES]; STATES] }
    }

    /// The model's file, by [`write_model`].
    ///
    /// # Errors
    /// 4 and 5 as [`write_model`].
    ///
    /// ```
    /// use twolsken::{Model, Refusal};
    ///
    /// assert_eq!(Model::empty().to_file(), Err(Refusal::Layout));
    /// ```
    pub fn to_file(&self) -> Result<Vec<u8>, Refusal> {
        let mut file = vec![0; LONGEST_FILE];
        let length = write_model(self, &mut file)?;
        file.truncate(length);
        Ok(file)
    }
}

/// Reads a model file. Rows are returned as they stand in the file: in version 1 an empty row stays empty.
///
/// # Errors
/// 2, the length; 3, a block's check; 4, the layout, or a version above 1; 5, weights of a state that do not add up
/// to D and are no empty row of version 1.
///
/// ```
/// use twolsken::{read_model, Model, Refusal};
///
/// let mut model = Model { n: 1, a: 1, d: 7, ..Model::empty() };
/// model.weights[0][0] = 7;
/// let mut file = model.to_file()?;
/// assert_eq!(read_model(&file)?, model);
///
/// file[5] = 1;
/// assert_eq!(read_model(&file), Err(Refusal::Check));
///
/// // In version 1 state 0 may be halted, and its row empty.
/// let halted = Model { version: 1, weights: Model::empty().weights, ..model };
/// assert_eq!(read_model(&halted.to_file()?)?, halted);
/// # Ok::<(), Refusal>(())
/// ```
pub fn read_model(file: &[u8]) -> Result<Model, Refusal> {
    let (mut head, mut masks, mut weights) = ([0; 4], [0; STATES], [[0; STATES]; STATES]);
    // SAFETY: the slice goes with its own length, and the arrays have the lengths that the function writes.
    Refusal::unless_zero(unsafe {
        raw::twolsken_read_model(file.as_ptr(), file.len(), &mut head, &mut masks, &mut weights)
    })?;
    let [n, a, d, version] = head;
    Ok(Model { n, a, d, version, masks, weights })
}

/// Writes a model's file to the front of `out` and returns its length, at most [`LONGEST_FILE`]. Bytes past it
/// are unchanged.
///
/// # Errors
/// 4, the layout, or a version above 1; 5, weights of a state that do not add up to D and are no empty row of
/// version 1; 14, `out` is too short.
///
/// ```
/// use twolsken::{write_model, Model, Refusal};
///
/// // The row of state 0 is empty: refused in version 0, allowed in version 1. There is no version 2.
/// let mut model = Model { n: 1, a: 1, d: 7, ..Model::empty() };
/// let mut out = [0; 2_000];
/// assert_eq!(write_model(&model, &mut out), Err(Refusal::RowSum));
/// model.version = 1;
/// assert_eq!(write_model(&model, &mut out), Ok(1_024));
/// model.version = 2;
/// assert_eq!(write_model(&model, &mut out), Err(Refusal::Layout));
///
/// model.version = 0;
/// model.weights[0][0] = 7;
/// assert_eq!(write_model(&model, &mut out), Ok(1_024));
/// assert_eq!(write_model(&model, &mut out[..1_023]), Err(Refusal::OutputShort));
/// ```
pub fn write_model(model: &Model, out: &mut [u8]) -> Result<usize, Refusal> {
    let head = [model.n, model.a, model.d, model.version];
    // SAFETY: the slice goes with its own length, and the arrays have the lengths that the function reads.
    Refusal::unless_written(unsafe {
        raw::twolsken_write_model(&head, &model.masks, &model.weights, out.as_mut_ptr(), out.len())
    })
}
