//! Which declared name is meant by one that is not.

use crate::words::NAME_BYTES;

/// Names further apart than this are not taken for one another.
const FURTHEST: usize = 2;

/// The name that is nearest to a wrong one: at most two letters are added, left out, changed or swapped, and of two to four letters at most one.
pub(crate) fn nearest<'n>(wrong: &str, names: impl Iterator<Item = &'n str>) -> Option<&'n str> {
    let near = |name: &'n str| {
        let apart = distance(wrong, name)?;
        (apart > 0).then_some((apart, name))
    };
    // The least name of those that are as near as each other, so that the order of declarations does not matter.
    names.filter_map(near).min().map(|(_, name)| name)
}

/// One more than the letters of the longest name that is compared.
const WIDTH: usize = NAME_BYTES + FURTHEST + 1;

/// How far the beginnings of one name are from a beginning of another.
type Row = [u8; WIDTH];

/// How many letters must be added, left out, changed or swapped with the next; none where it is too many for names of this length.
fn distance(one: &str, other: &str) -> Option<usize> {
    let longest = one.len().max(other.len());
    let most = FURTHEST.min((longest + 1) / 3);
    if longest >= WIDTH || one.len().abs_diff(other.len()) > most {
        return None;
    }
    let mut rows = [[0; WIDTH]; 2];
    rows[1] = std::array::from_fn(|place| place as u8);
    for place in 0..one.len() {
        rows = [
            rows[1],
            next_row(&rows, one.as_bytes(), place, other.as_bytes()),
        ];
    }
    Some(usize::from(rows[1][other.len()])).filter(|apart| *apart <= most)
}

/// The row of a beginning of `one` that is a letter longer than that of the last row.
fn next_row([before, above]: &[Row; 2], one: &[u8], place: usize, other: &[u8]) -> Row {
    let mut row = [0; WIDTH];
    row[0] = place as u8 + 1;
    for (column, letter) in other.iter().enumerate() {
        let changed = above[column] + u8::from(*letter != one[place]);
        let added = row[column].min(above[column + 1]) + 1;
        let is_swap =
            place > 0 && column > 0 && *letter == one[place - 1] && other[column - 1] == one[place];
        let swapped = if is_swap {
            before[column - 1] + 1
        } else {
            added
        };
        row[column + 1] = changed.min(added).min(swapped);
    }
    row
}

#[cfg(test)]
mod tests {
    use super::*;

    #[test]
    fn the_nearest_within_two_letters() {
        let names = || ["canteen", "bank", "r3"].into_iter();
        assert_eq!(nearest("cantene", names()), Some("canteen"));
        assert_eq!(nearest("abnk", names()), Some("bank"));
        assert_eq!(nearest("bnk", names()), Some("bank"));
        assert_eq!(nearest("r4", names()), Some("r3"));
        assert_eq!(nearest("can", names()), None);
        assert_eq!(nearest("x", names()), None);
        assert_eq!(nearest(&"x".repeat(1 << 20), names()), None);
    }
}
