//! The word that was probably meant.

/// How many letters differ at most in a word that was probably meant.
const MOST: usize = 2;
/// A word of more letters is near to none of the command line's.
const LONGEST: usize = 40;

/// How many letters are to be put in, left out or replaced to make the one word of the other, or two neighbours to be exchanged.
fn distance(a: &str, b: &str) -> usize {
    let (a, b): (Vec<char>, Vec<char>) = (a.chars().collect(), b.chars().collect());
    let mut lines: Vec<Vec<usize>> = vec![(0..=b.len()).collect()];
    for i in 1..=a.len() {
        let mut line = vec![i];
        for j in 1..=b.len() {
            let replaced = lines[i - 1][j - 1] + usize::from(a[i - 1] != b[j - 1]);
            let mut least = replaced.min(lines[i - 1][j] + 1).min(line[j - 1] + 1);
            if i > 1 && j > 1 && a[i - 1] == b[j - 2] && a[i - 2] == b[j - 1] {
                least = least.min(lines[i - 2][j - 2] + 1);
            }
            line.push(least);
        }
        lines.push(line);
    }
    lines[a.len()][b.len()]
}

/// The nearest of these words, in whatever case, if one is near enough: a few letters differ, fewer than stay, or it begins with the whole word.
pub fn nearest<'a>(word: &str, words: &[&'a str]) -> Option<&'a str> {
    let word = word.to_lowercase();
    if word.chars().count() > LONGEST {
        return None;
    }
    let word = word.as_str();
    let near = |other: &&'a str| (distance(word, other), *other);
    let best = words.iter().map(near).min_by_key(|(distance, _)| *distance);
    let begins = || words.iter().find(|other| word.len() > MOST && other.starts_with(word)).copied();
    match best {
        Some((distance, other)) if distance <= MOST && 2 * distance < other.len() => Some(other),
        _ => begins(),
    }
}
