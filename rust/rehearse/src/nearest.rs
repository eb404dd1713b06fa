//! The name that somebody may have meant.

/// The known name that takes the fewest slips, if they are few. The dashes of an option do not count.
pub fn nearest<'a>(word: &str, known: impl Iterator<Item = &'a str>) -> Option<&'a str> {
    let letters = |name: &str| -> Vec<char> { name.trim_start_matches('-').chars().collect() };
    let word = letters(word);
    let most = match word.len() {
        0 | 1 => return None,
        2..=5 => 1,
        _ => 2,
    };
    let near = known.map(|name| (slips(&word, &letters(name)), name));
    near.min().filter(|&(slips, _)| slips <= most).map(|(_, name)| name)
}

/// How many letters have to be put in, taken out, changed or exchanged with the next.
fn slips(from: &[char], to: &[char]) -> usize {
    let mut rows = vec![vec![0; to.len() + 1]; from.len() + 1];
    for at in 0..=from.len() {
        for place in 0..=to.len() {
            rows[at][place] = match (at, place) {
                (0, count) | (count, 0) => count,
                _ => {
                    let changed = rows[at - 1][place - 1] + usize::from(from[at - 1] != to[place - 1]);
                    changed.min(rows[at - 1][place] + 1).min(rows[at][place - 1] + 1)
                }
            };
            let is_exchanged = at > 1 && place > 1 && from[at - 1] == to[place - 2] && from[at - 2] == to[place - 1];
            if is_exchanged {
                rows[at][place] = rows[at][place].min(rows[at - 2][place - 2] + 1);
            }
        }
    }
    rows[from.len()][to.len()]
}

#[cfg(test)]
mod tests {
    use super::*;

    #[test]
    fn a_name_with_a_slip_is_found() {
        let known = [
            "journey",
            "plan",
            "show",
            "sign",
            "-o",
            "--raw",
            "--hex",
            "--json",
            "--earliest",
        ];
        for (word, meant) in [
            ("jurney", Some("journey")),
            ("shwo", Some("show")),
            ("plans", Some("plan")),
            ("journeys", Some("journey")),
            ("-json", Some("--json")),
            ("--earlyest", Some("--earliest")),
            ("--now", None),
            ("--key", None),
            ("-p", None),
            ("", None),
            ("expire", None),
        ] {
            assert_eq!(nearest(word, known.into_iter()), meant, "{word}");
        }
    }

    #[test]
    fn slips_are_counted() {
        for (from, to, count) in [
            ("", "", 0),
            ("", "ab", 2),
            ("kitten", "sitting", 3),
            ("ü", "u", 1),
            ("shwo", "show", 1),
            ("abcd", "badc", 2),
        ] {
            let [from, to] = [from, to].map(|word| word.chars().collect::<Vec<_>>());
            assert_eq!(slips(&from, &to), count, "{from:?} {to:?}");
            assert_eq!(slips(&to, &from), count, "{to:?} {from:?}");
        }
    }
}
