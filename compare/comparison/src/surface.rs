//! The surfaces that the clauses define, held against each other in whole numbers: a Coons patch's, and that of the tensor patch it becomes.

use crate::checks::Fault;

/// The stream's place of each point pij of a tensor patch (8.7.4.5.8).
pub const GRID: [[usize; 4]; 4] = [[0, 1, 2, 3], [11, 12, 13, 4], [10, 15, 14, 5], [9, 8, 7, 6]];

pub const AXES: [&str; 2] = ["x", "y"];

/// 27 times a cubic Bezier curve at 0, 1/3, 2/3 and 1.
fn bezier([a, b, c, d]: [i128; 4]) -> [i128; 4] {
    [
        27 * a,
        8 * a + 12 * b + 6 * c + d,
        a + 6 * b + 12 * c + 8 * d,
        27 * d,
    ]
}

/// 729 times the tensor surface of sixteen points in stream order (8.7.4.5.8), at each v a line of each u.
fn tensor_surface(points: [i128; 16]) -> [[i128; 4]; 4] {
    let over_v = GRID.map(|row| bezier(row.map(|place| points[place])));
    std::array::from_fn(|v| bezier(over_v.map(|curve| curve[v])))
}

/// 729 times the Coons surface of twelve points in stream order, S = SC + SD - SB (8.7.4.5.7), at each v a line of each u.
fn coons_surface(points: [i128; 12]) -> [[i128; 4]; 4] {
    let curve = |places: [usize; 4]| bezier(places.map(|place| points[place]));
    let (c1, c2) = (curve([0, 11, 10, 9]), curve([3, 4, 5, 6]));
    let (d1, d2) = (curve([0, 1, 2, 3]), curve([9, 8, 7, 6]));
    // three times what lies between two numbers at t / 3
    let between = |a: i128, b: i128, t: usize| (3 - t as i128) * a + t as i128 * b;
    std::array::from_fn(|v| {
        std::array::from_fn(|u| {
            let sc = between(c1[u], c2[u], v);
            let sd = between(d1[v], d2[v], u);
            let sb = between(between(c1[0], c1[3], u), between(c2[0], c2[3], u), v);
            9 * (sc + sd) - 3 * sb
        })
    })
}

/// Holds the tensor surface of nine times the points against nine times the Coons surface, at u and v of 0, 1/3, 2/3 and 1. Both surfaces are
/// cubic in u and in v, so that those which agree there agree everywhere.
///
/// All is whole, and nothing overflows: the weights of the sixteen points sum up to 729, those of the twelve, their signs left out, to 9 * 3 * 729,
/// which is under 2 ^ 15. So points of 64 bits, whatever they are, stay under 2 ^ 78.
pub fn check_surface(
    patch: usize,
    axis: usize,
    border: [i128; 12],
    nine_fold: [i128; 16],
) -> Result<(), Fault> {
    let expected = coons_surface(border).map(|line| line.map(|x| 9 * x));
    let ours = tensor_surface(nine_fold);
    for v in 0..4 {
        for u in 0..4 {
            let (expected, ours) = (expected[v][u], ours[v][u]);
            if expected != ours {
                let at = format!("u = {u}/3, v = {v}/3");
                return Err(Fault::new(
                    format!("patch {patch}, {} times 6561 at {at}", AXES[axis]),
                    expected.to_string(),
                    ours.to_string(),
                ));
            }
        }
    }
    Ok(())
}

#[cfg(test)]
mod tests {
    use super::*;

    #[test]
    fn a_wrong_point_is_found() {
        // x of the patch in examples/coons_to_tensor.c
        let border = [30, 20, 40, 30, 60, 90, 120, 130, 110, 120, 90, 60];
        let inner = [50, 70, 100, 80];
        let mut right = [0; 16];
        for (to, from) in right.iter_mut().zip(border.iter().chain(&inner)) {
            *to = 9 * from;
        }
        assert!(check_surface(0, 0, border, right).is_ok());
        for place in 0..16 {
            let mut wrong = right;
            wrong[place] += 1;
            assert!(check_surface(0, 0, border, wrong).is_err());
        }
        let mut exchanged = right;
        exchanged.swap(14, 15);
        assert!(check_surface(0, 0, border, exchanged).is_err());
    }

    #[test]
    fn nothing_overflows() {
        for end in [i64::MIN, i64::MAX] {
            assert!(check_surface(0, 0, [u32::MAX.into(); 12], [end.into(); 16]).is_err());
            assert!(check_surface(0, 0, [end.into(); 12], [0; 16]).is_err());
        }
    }
}
