//! The declared name that was probably meant.

/// The least number of letters to be put in, taken out, replaced or swapped with a neighbour; case does not count.
fn distance(one: &[u8], other: &[u8]) -> usize {
    let mut rows = vec![(0..=other.len()).collect::<Vec<_>>()];
    for i in 1..=one.len() {
        let mut row = vec![i];
        for j in 1..=other.len() {
            let same = |a: usize, b: usize| one[a - 1].eq_ignore_ascii_case(&other[b - 1]);
            let replaced = rows[i - 1][j - 1] + usize::from(!same(i, j));
            let mut least = replaced.min(rows[i - 1][j] + 1).min(row[j - 1] + 1);
            if i > 1 && j > 1 && same(i, j - 1) && same(i - 1, j) {
                least = least.min(rows[i - 2][j - 2] + 1);
            }
            row.push(least);
        }
        rows.push(row);
    }
    rows[one.len()][other.len()]
}

/// The place of the nearest name, the first of several; none if a third of the letters or more would change.
pub fn nearest<'a>(word: &[u8], names: impl Iterator<Item = &'a [u8]>) -> Option<usize> {
    let distances = names.enumerate().map(|(place, name)| (distance(word, name), place));
    distances.min().filter(|(distance, _)| 3 * distance <= word.len()).map(|(_, place)| place)
}

#[cfg(test)]
mod tests {
    use super::*;

    #[test]
    fn slips() {
        let names = [&b"volume"[..], b"well", b"Wells"];
        let place = |word: &[u8]| nearest(word, names.into_iter());
        assert_eq!(
            [place(b"volumne"), place(b"voulme"), place(b"wel"), place(b"wells"), place(b"VOLUME")].map(Option::unwrap),
            [0, 0, 1, 2, 0]
        );
        assert_eq!((place(b"mix"), place(b"w")), (None, None));
    }
}
