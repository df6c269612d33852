//! Merging states that behave alike (document 01, 'Calls and refusal numbers';
//! document 02, T-05; refusals 2 to 5, 12, 13 and 14).

use super::model::{read_model, write_model, Model};

/// Writes the model merged by a grouping to the front of `out` and tells the
/// file's length. The rows are those after filling. Refusals 2, 3, 4, 5, 12, 13, 14.
pub fn merge(file: &[u8], grouping: &[u8], out: &mut [u8]) -> Result<usize, u8> {
    merge_rows(&read_model(file)?.filled(), grouping, out)
}

/// Merges by the rows of a record as they are given. Refusals 12, 13, 14.
pub fn merge_rows(model: &Model, grouping: &[u8], out: &mut [u8]) -> Result<usize, u8> {
    let groups = groups_of(model, grouping).ok_or(12)?;
    if !groups.iter().all(|members| alike(model, &groups, members)) {
        return Err(13);
    }
    write_model(&merged(model, &groups), out)
}

/// The members of each group, if there is one number a state and the numbers
/// are exactly 0..M−1, each used.
fn groups_of(model: &Model, grouping: &[u8]) -> Option<Vec<Vec<usize>>> {
    if grouping.len() != model.n as usize {
        return None;
    }
    let last = usize::from(*grouping.iter().max()?);
    let mut groups = vec![Vec::new(); last + 1];
    for (state, &group) in grouping.iter().enumerate() {
        groups[usize::from(group)].push(state);
    }
    groups.iter().all(|members| !members.is_empty()).then_some(groups)
}

/// The total weight of a state into a group.
fn weight_into(model: &Model, state: usize, group: &[usize]) -> u32 {
    group.iter().map(|&t| u32::from(model.weights[state][t])).sum()
}

/// Whether any two members have equal masks and equal weights into every group.
fn alike(model: &Model, groups: &[Vec<usize>], members: &[usize]) -> bool {
    let equal = |s: usize, t: usize| {
        model.masks[s] == model.masks[t]
            && groups.iter().all(|group| weight_into(model, s, group) == weight_into(model, t, group))
    };
    members.iter().all(|&s| members.iter().all(|&t| equal(s, t)))
}

/// The merged model, of the same version: each group with its members' mask and a member's total weights.
fn merged(model: &Model, groups: &[Vec<usize>]) -> Model {
    let Model { a, d, version, .. } = *model;
    let mut small = Model { n: groups.len() as u32, a, d, version, ..Model::empty() };
    for (g, members) in groups.iter().enumerate() {
        small.masks[g] = model.masks[members[0]];
        for (h, group) in groups.iter().enumerate() {
            small.weights[g][h] = weight_into(model, members[0], group) as u16;
        }
    }
    small
}

#[cfg(test)]
mod tests {
    use super::super::meaning::{numerator, ENOUGH};
    use super::super::model::examples::{halted, m1, m2};
    use super::*;

    fn file(model: &Model) -> Vec<u8> {
        let mut out = [0; 3_072];
        let length = write_model(model, &mut out).unwrap();
        out[..length].to_vec()
    }

    #[test]
    fn m2_merges_as_the_document_says() {
        let mut out = [7; 1_100];
        assert_eq!(merge(&file(&m2()), &[0, 1, 1], &mut out), Ok(1_024));
        assert!(out[1_024..].iter().all(|&byte| byte == 7));
        let small = read_model(&out[..1_024]).unwrap();
        assert_eq!((small.n, small.a, small.d), (2, 1, 4));
        assert_eq!(small.masks[..2], [0, 1]);
        assert_eq!(small.weights[0][..2], [2, 2]);
        assert_eq!(small.weights[1][..2], [0, 4]);
        let asked = |file: &[u8]| numerator(file, b"A.=PU0,2:Ta1#0/1;", &[0], 0, &mut [0; ENOUGH]);
        assert_eq!(asked(&out[..1_024]), Ok((12, 16)));
        assert_eq!(asked(&file(&m2())), Ok((12, 16)));
    }

    #[test]
    fn the_refusals_and_the_identity() {
        let good = file(&m2());
        let mut out = [7; 1_100];
        assert_eq!(merge(&good, &[0, 0, 1], &mut out), Err(13));
        assert_eq!(merge(&good, &[0, 2, 2], &mut out), Err(12));
        assert_eq!(merge(&good, &[0, 1], &mut out), Err(12));
        assert_eq!(merge(&good, &[0, 1, 1, 1], &mut out), Err(12));
        assert_eq!(merge(&good, &[], &mut out), Err(12));
        assert_eq!(merge(&good, &[1, 1, 1], &mut out), Err(12));
        assert_eq!(merge(&good, &[0, 1, 255], &mut out), Err(12));
        assert_eq!(merge(&good, &[0, 1, 1], &mut out[..1_023]), Err(14));
        assert_eq!(out, [7; 1_100]);
        assert_eq!(merge(&good, &[0, 1, 2], &mut out), Ok(good.len()));
        assert_eq!(out[..good.len()], good);
    }

    #[test]
    fn totals_decide_and_not_single_weights() {
        let mut model = m1();
        model.n = 4;
        model.masks[..4].copy_from_slice(&[0, 0, 1, 1]);
        model.weights[0][..4].copy_from_slice(&[3, 0, 1, 0]);
        model.weights[1][..4].copy_from_slice(&[1, 2, 0, 1]);
        model.weights[2][..4].copy_from_slice(&[0, 0, 4, 0]);
        model.weights[3][..4].copy_from_slice(&[0, 0, 1, 3]);
        let mut out = [0; 1_024];
        assert_eq!(merge(&file(&model), &[0, 0, 1, 1], &mut out), Ok(1_024));
        assert_eq!(read_model(&out), Ok(m1()));
    }

    #[test]
    fn merging_keeps_the_version_and_writes_filled_rows() {
        let filled = file(&Model { version: 1, ..m2() });
        let mut out = [7; 1_100];
        for given in [file(&halted()), filled.clone()] {
            assert_eq!(merge(&given, &[0, 1, 2], &mut out), Ok(1_024));
            assert_eq!(out[..1_024], filled);
        }
        assert_eq!(merge(&file(&halted()), &[0, 1, 1], &mut out), Ok(1_024));
        let small = read_model(&out[..1_024]).unwrap();
        assert_eq!((small.n, small.version), (2, 1));
        assert_eq!(
            (small.weights[0][..2].to_vec(), small.weights[1][..2].to_vec()),
            (vec![2, 2], vec![0, 4])
        );
        assert!(out[1_024..].iter().all(|&byte| byte == 7));
        assert_eq!(merge(&file(&halted()), &[0, 0, 1], &mut out), Err(13));
        assert_eq!(merge(&file(&halted()), &[0, 1, 1], &mut out[..1_023]), Err(14));
    }

    #[test]
    fn an_empty_row_goes_with_rows_that_stay_in_its_group() {
        // States 0 and 1 halt, state 2 says so, state 3 moves between 2 and itself, state 4 leaves.
        let mut model = Model { n: 5, a: 1, d: 4, version: 1, ..Model::empty() };
        model.weights[2][2] = 4;
        model.weights[3][2..4].copy_from_slice(&[1, 3]);
        model.weights[4][..5].copy_from_slice(&[1, 0, 0, 0, 3]);
        let answer = |grouping: &[u8]| merge(&file(&model), grouping, &mut [0; 1_024]).err();
        assert_eq!(answer(&[0, 0, 1, 2, 3]), None);
        assert_eq!(answer(&[0, 0, 0, 1, 2]), None);
        assert_eq!(answer(&[0, 0, 0, 0, 1]), None);
        assert_eq!(answer(&[0, 0, 0, 0, 0]), None);
        assert_eq!(answer(&[0, 1, 1, 0, 2]), Some(13));
        assert_eq!(answer(&[0, 1, 1, 2, 1]), Some(13));
        model.masks[1] = 1;
        assert_eq!(merge(&file(&model), &[0, 0, 1, 2, 3], &mut [0; 1_024]), Err(13));
    }
}
