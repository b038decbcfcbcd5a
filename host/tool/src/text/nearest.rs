//! The name that was probably meant: the one that is the fewest edits away. An edit puts in, takes out or changes a
//! letter.

use strsim::levenshtein;

/// The nearest of the names, ASCII case ignored, if few enough letters differ.
pub fn nearest<'a>(given: &str, names: &[&'a str]) -> Option<&'a str> {
    let given = given.to_ascii_lowercase();
    let (distance, name) = names
        .iter()
        .map(|name| (levenshtein(&given, &name.to_ascii_lowercase()), *name))
        .min_by_key(|(d, _)| *d)?;
    (distance <= 1 + given.chars().count() / 4).then_some(name)
}

#[cfg(test)]
mod tests {
    use super::*;

    #[test]
    fn edits_are_counted() {
        assert_eq!(levenshtein("kitten", "sitting"), 3);
        assert_eq!(levenshtein("", "abc"), 3);
        assert_eq!(levenshtein("abc", "abc"), 0);
    }

    #[test]
    fn the_nearest_name_is_found_or_none() {
        let names = ["Edge", "Tile", "Mirror", "HorizontalTile"];
        assert_eq!(nearest("miror", &names), Some("Mirror"));
        assert_eq!(nearest("horizontal-tile", &names), Some("HorizontalTile"));
        assert_eq!(nearest("zzzz", &names), None);
        assert_eq!(nearest("", &names), None);
    }
}
