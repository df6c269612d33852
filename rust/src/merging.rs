//! Merging states that behave alike.

use crate::{raw, Refusal};

/// Writes the file of the model merged by a grouping to the front of `out` and returns its length. Bytes past it
/// are unchanged. `grouping` has one byte for each state, the number of its group, counted from 0.
///
/// The merged model has the version of the full one. In version 1 an empty row counts, and is written, as weight D to
/// the state itself: the grouping 0, 1, 2 and on gives back the filled file.
///
/// # Errors
/// 2 to 5 as [`crate::read_model`]; 12, no grouping of the model's states; 13, two states of a group differ in
/// labels or in weight into some group; 14, `out` is too short.
///
/// ```
/// use twolsken::{merge, read_model, Refusal, Table, LONGEST_FILE};
///
/// let table: Table = "
///     D 4
///     labels a
///     state start:      start 2, one 1, other 1
///     state one (a):    one 3, other 1
///     state other (a):  other 4
/// "
/// .parse()?;
/// let file = table.model.to_file()?;
///
/// // `one` and `other` become one state; into it `start` has the weight of both.
/// let mut out = [0; LONGEST_FILE];
/// let length = merge(&file, &[0, 1, 1], &mut out)?;
/// let merged = read_model(&out[..length])?;
/// assert_eq!((merged.n, &merged.weights[0][..2]), (2, &[2, 2][..]));
///
/// // `start` and `one` differ in labels.
/// assert_eq!(merge(&file, &[0, 0, 1], &mut out), Err(Refusal::NotAlike));
///
/// // `stopped` has an empty row, which comes back filled.
/// let table: Table = "
///     version 1
///     D 4
///     labels a
///     state going:        going 3, stopped 1
///     state stopped (a):
/// "
/// .parse()?;
/// let length = merge(&table.model.to_file()?, &[0, 1], &mut out)?;
/// let filled = read_model(&out[..length])?;
/// assert_eq!(table.model.weights[1][..2], [0, 0]);
/// assert_eq!((filled.version, &filled.weights[1][..2]), (1, &[0, 4][..]));
/// # Ok::<(), Box<dyn std::error::Error>>(())
/// ```
pub fn merge(file: &[u8], grouping: &[u8], out: &mut [u8]) -> Result<usize, Refusal> {
    // SAFETY: each slice goes with its own length.
    Refusal::unless_written(unsafe {
        raw::twolsken_merge(
            file.as_ptr(),
            file.len(),
            grouping.as_ptr(),
            grouping.len(),
            out.as_mut_ptr(),
            out.len(),
        )
    })
}
