//! The search, run by the Rust's `beam_search` and once more level by level to count the rounds.

use crate::maxcut_oracle::obj_rounded;
use crate::sdp_local_search::{beam_search, get_improving_children};
use ndarray::Array1;
use sprs::CsMat;

pub struct Searched {
    pub signs: Array1<f64>,
    pub objective: f64,
    /// Sizes of the non-empty levels; a round is one of them.
    pub levels: Vec<usize>,
}

/// 01's search from `start`. With width 0 the start stands and `beam_search` is not called, as the
/// solver does it: called with width 0, `beam_search` itself would still look at level 1.
pub fn search(q: &CsMat<f64>, width: usize, start: &Array1<f64>) -> Searched {
    if width == 0 {
        let objective = obj_rounded(q, start);
        return Searched { signs: start.clone(), objective, levels: Vec::new() };
    }
    let counted = by_levels(q, width, start);
    let (objective, signs) = beam_search(q, width, vec![start.clone()]);
    assert_eq!(counted.objective, objective, "the two searches' objectives");
    assert_eq!(counted.signs, signs, "the two searches' signs");
    counted
}

/// The levels one by one, with the Rust's children, its sort and its cut.
pub fn by_levels(q: &CsMat<f64>, width: usize, start: &Array1<f64>) -> Searched {
    levels_keeping(q, width, start, |_| true)
}

/// The same, but children that aren't kept are dropped before the sort and the cut.
pub fn levels_keeping(
    q: &CsMat<f64>,
    width: usize,
    start: &Array1<f64>,
    keep: impl Fn(&Array1<f64>) -> bool,
) -> Searched {
    let children = |x: &Array1<f64>| {
        let mut all = get_improving_children(x, q);
        all.retain(|(_, child)| keep(child));
        all
    };
    let mut best = (obj_rounded(q, start), start.clone());
    let mut levels = Vec::new();
    let mut level = children(start);
    while !level.is_empty() {
        levels.push(level.len());
        for child in &level {
            if child.0 < best.0 {
                best = child.clone();
            }
        }
        let mut next: Vec<_> = level.iter().flat_map(|(_, x)| children(x)).collect();
        next.sort_by(|a, b| a.0.partial_cmp(&b.0).expect("objectives are numbers"));
        next.truncate(width);
        level = next;
    }
    Searched { objective: best.0, signs: best.1, levels }
}
