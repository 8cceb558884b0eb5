//! Which rows a boom reaches: the rows, each a box, that a cover meets, touching included.

use crate::cover::check_box;
use crate::day::meet;
use crate::judged::Judged;
use crate::refusal::SET;

pub const MOST_ROWS: usize = 256;

/// The places of the rows that the cover meets: 14 for no rows or too many, 6 and 7 of the cover, then row by row.
pub fn reached_rows(cover: &[f32; 6], rows: &[[f32; 6]]) -> Judged<Vec<usize>> {
    if rows.is_empty() || rows.len() > MOST_ROWS {
        return Err(SET);
    }
    check_box(cover)?;
    rows.iter().try_for_each(check_box)?;
    Ok((0..rows.len()).filter(|&place| meet(cover, &rows[place])).collect())
}

#[cfg(test)]
mod tests {
    use super::*;

    const COVER: [f32; 6] = [0.0, 0.0, 0.0, 2.0, 1.0, 1.0];

    /// Rows along x, each from its first number to its second.
    fn rows(ends: &[(f32, f32)]) -> Vec<[f32; 6]> {
        ends.iter().map(|&(low, high)| [low, 0.0, 0.0, high, 1.0, 1.0]).collect()
    }

    #[test]
    fn touching_rows_are_named() {
        let met = reached_rows(&COVER, &rows(&[(-1.0, -0.0), (3.0, 4.0), (0.5, 0.75), (2.0, 2.0), (2.0f32.next_up(), 3.0)]));
        assert_eq!(met, Ok(vec![0, 2, 3]));
        assert_eq!(reached_rows(&COVER, &rows(&[(3.0, 4.0)])), Ok(vec![]));
    }

    #[test]
    fn what_is_refused() {
        let bad = [f32::NAN; 6];
        assert_eq!(reached_rows(&bad, &[]), Err(14));
        assert_eq!(reached_rows(&COVER, &[COVER; 256]).map(|met| met.len()), Ok(256));
        assert_eq!(reached_rows(&bad, &[bad; 257]), Err(14));
        assert_eq!(reached_rows(&bad, &rows(&[(1.0, 0.0)])), Err(6));
        assert_eq!(reached_rows(&rows(&[(1.0, 0.0)])[0], &[bad]), Err(7));
        assert_eq!(reached_rows(&COVER, &[COVER, rows(&[(1.0, 0.0)])[0], bad]), Err(7));
    }
}
