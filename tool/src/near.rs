//! Known names that a misspelt one may mean.

use crate::words::{joined, quoted};

/// The most names that are told where none is near.
const MOST_TOLD: usize = 12;

/// What would do in place of a name that is not known: the near ones; or else any that
/// is known, or what is said here.
pub fn one_of(name: &str, known: &[impl AsRef<str>], or: Option<&str>) -> String {
    let mut told: Vec<String> = nearest(name, known).iter().map(quoted).collect();
    if told.is_empty() {
        told.extend(known.iter().take(MOST_TOLD).map(quoted));
        told.extend((known.len() > MOST_TOLD).then(|| "..".to_owned()));
        told.extend(or.map(str::to_owned));
    }
    joined(&told, "or")
}

/// The known names that are nearest to another one, if any is near: at most a third of
/// the letters are wrong, missing, too many or exchanged with the next, upper and lower
/// case counted alike.
fn nearest<'k>(name: &str, known: &'k [impl AsRef<str>]) -> Vec<&'k str> {
    let known = known.iter().map(AsRef::as_ref);
    let near = known.filter_map(|known| {
        let most = name.len().max(known.len()) / 3;
        // At least so many letters are missing or too many.
        let least = name.len().abs_diff(known.len());
        let distance = (least <= most).then(|| distance(name, known))?;
        (distance <= most).then_some((distance, known))
    });
    let near: Vec<(usize, &str)> = near.collect();
    let least = near.iter().map(|(distance, _)| *distance).min();
    let nearest = near
        .into_iter()
        .filter(|(distance, _)| Some(*distance) == least);
    nearest.map(|(_, known)| known).collect()
}

/// How many changes of one letter, or exchanges of two neighbours, lead from one name
/// to another.
fn distance(one: &str, other: &str) -> usize {
    let [one, other] = [one, other].map(|name| name.to_lowercase().into_bytes());
    let mut rows = vec![(0..=other.len()).collect::<Vec<usize>>()];
    for i in 1..=one.len() {
        let mut row = vec![i];
        for j in 1..=other.len() {
            let changed = rows[i - 1][j - 1] + usize::from(one[i - 1] != other[j - 1]);
            let mut least = changed.min(rows[i - 1][j] + 1).min(row[j - 1] + 1);
            let exchanged =
                i > 1 && j > 1 && one[i - 1] == other[j - 2] && one[i - 2] == other[j - 1];
            if exchanged {
                least = least.min(rows[i - 2][j - 2] + 1);
            }
            row.push(least);
        }
        rows.push(row);
    }
    rows[one.len()][other.len()]
}

#[cfg(test)]
mod tests {
    use super::*;

    #[test]
    fn counts_changes_and_exchanges() {
        for (one, other, expected) in [
            ("", "", 0),
            ("time", "time", 0),
            ("time", "TIME", 0),
            ("tme", "time", 1),
            ("tiime", "time", 1),
            ("tame", "time", 1),
            ("tiem", "time", 1),
            ("", "axis", 4),
            ("code", "axis", 4),
        ] {
            assert_eq!(distance(one, other), expected, "{one} {other}");
            assert_eq!(distance(other, one), expected, "{other} {one}");
        }
    }

    #[test]
    fn gives_the_nearest_names_that_are_near() {
        let known = ["time", "axis", "times", "a", "l_key", "o_key"];
        let long = "time".repeat(30_000);
        for (name, expected) in [
            ("tmie", &["time"][..]),
            ("timess", &["times"]),
            ("axs", &["axis"]),
            ("A", &["a"]),
            ("key", &[]),
            ("_key", &["l_key", "o_key"]),
            ("b", &[]),
            ("code", &[]),
            ("", &[]),
            (&long, &[]),
        ] {
            assert_eq!(nearest(name, &known), expected, "{name}");
        }
        assert!(nearest("time", &[] as &[&str]).is_empty());
    }

    #[test]
    fn tells_what_would_do() {
        let known = ["time", "axis", "rime"];
        assert_eq!(one_of("axs", &known, Some("x")), "`axis`");
        assert_eq!(one_of("dime", &known, None), "`time` or `rime`");
        assert_eq!(one_of("b", &known, None), "`time`, `axis` or `rime`");
        assert_eq!(one_of("b", &known[..1], Some("x")), "`time` or x");
        assert_eq!(one_of("b", &known[..0], Some("x")), "x");
        let many = ["name"; 13];
        let told = one_of("b", &many, Some("x"));
        assert_eq!(told, "`name`, ".repeat(12) + ".. or x");
    }
}
