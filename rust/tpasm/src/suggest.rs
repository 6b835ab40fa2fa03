//! The nearest name to one that means nothing.

/// Names above this length get no suggestion and are none.
const MAX_LENGTH: usize = 64;

/// The name with the fewest changes to `name`, at most one for three characters of the longer of the
/// two; of several, the first.
pub fn nearest<'a>(name: &str, known: impl IntoIterator<Item = &'a str>) -> Option<&'a str> {
    let name: Vec<char> = name.chars().take(MAX_LENGTH + 1).collect();
    let mut best: Option<(usize, &str)> = None;
    for candidate in known {
        let other: Vec<char> = candidate.chars().take(MAX_LENGTH + 1).collect();
        let longer = name.len().max(other.len());
        if longer > MAX_LENGTH || name.len().abs_diff(other.len()) > longer / 3 {
            continue;
        }
        let changes = distance(&name, &other);
        if changes <= longer / 3 && best.map_or(true, |(least, _)| changes < least) {
            best = Some((changes, candidate));
        }
    }
    best.map(|(_, candidate)| candidate)
}

/// How many characters are to be put in, left out, replaced, or exchanged with the next one, each
/// changed once at most.
fn distance(left: &[char], right: &[char]) -> usize {
    let mut older = Vec::new();
    let mut old: Vec<usize> = (0..=right.len()).collect();
    for (i, l) in left.iter().enumerate() {
        let mut row = vec![i + 1];
        for (j, r) in right.iter().enumerate() {
            let replaced = old[j] + usize::from(l != r);
            let mut least = replaced.min(old[j + 1] + 1).min(row[j] + 1);
            if i > 0 && j > 0 && *l == right[j - 1] && left[i - 1] == *r {
                let before: &Vec<usize> = &older;
                least = least.min(before[j - 1] + 1);
            }
            row.push(least);
        }
        older = old;
        old = row;
    }
    old[right.len()]
}

#[cfg(test)]
mod tests;
