//! Lists of numbers as ImageMagick has them: blanks and commas between, any number of blanks, at most one comma.

/// The numbers of a list. An empty list has none.
pub fn numbers(text: &str) -> Result<Vec<f64>, String> {
    let text = text.trim();
    if text.is_empty() {
        return Ok(Vec::new());
    }
    text.split(',').try_fold(Vec::new(), |mut all, part| {
        let before = all.len();
        for word in part.split_whitespace() {
            all.push(number(word)?);
        }
        if all.len() == before {
            return Err(format!("a number is missing at a comma of '{text}'"));
        }
        Ok(all)
    })
}

/// One number in digits. `parse` alone would take words such as `nan` and `infinity` too.
pub fn number(word: &str) -> Result<f64, String> {
    let digits = word
        .chars()
        .all(|c| c.is_ascii_digit() || "+-.eE".contains(c));
    match word.parse::<f64>() {
        Ok(number) if digits => Ok(number),
        _ => Err(format!("'{word}' is not a number")),
    }
}

/// The four corners `u,v` of the card, and whether they run the wrong way round, which mirrors the picture.
pub fn corners(text: &str) -> Result<([(f64, f64); 4], bool), String> {
    let values = numbers(text)?;
    let [a, b, c, d, e, f, g, h] = values[..] else {
        let count = values.len();
        return Err(format!(
            "four corners are eight numbers, u,v for each of top-left, top-right, bottom-right and bottom-left: \
             here are {count}"
        ));
    };
    let corners = [(a, b), (c, d), (e, f), (g, h)];
    let turns = [0, 1, 2, 3].map(|k| turn(corners[k], corners[(k + 1) % 4], corners[(k + 2) % 4]));
    let (left, right) = (
        turns.iter().any(|t| *t < 0.0),
        turns.iter().any(|t| *t > 0.0),
    );
    if turns.contains(&0.0) {
        return Err(
            "three of the corners lie on one line, or two are one point: a card has four that are apart".to_owned()
        );
    }
    if left && right {
        return Err(
            "the corners cross or make a dent: give them as top-left, top-right, bottom-right, bottom-left".to_owned()
        );
    }
    Ok((corners, left))
}

/// Which way a, b, c turn: above 0 clockwise, as y points down.
fn turn(a: (f64, f64), b: (f64, f64), c: (f64, f64)) -> f64 {
    (b.0 - a.0) * (c.1 - b.1) - (b.1 - a.1) * (c.0 - b.0)
}

#[cfg(test)]
mod tests {
    use super::*;

    #[test]
    fn blanks_and_commas_part_numbers() {
        assert_eq!(
            numbers("1,2 3 ,4\t, -5e1\n+.5"),
            Ok(vec![1.0, 2.0, 3.0, 4.0, -50.0, 0.5])
        );
        assert_eq!(numbers("  "), Ok(vec![]));
        assert_eq!(numbers("1e400"), Ok(vec![f64::INFINITY]));
    }

    #[test]
    fn letters_and_holes_are_told() {
        assert_eq!(numbers("1,2,x3"), Err("'x3' is not a number".to_owned()));
        for word in [
            "nan",
            "inf",
            "-infinity",
            "1e",
            "--1",
            "0x10",
            "1_000",
            "1;2",
        ] {
            assert_eq!(numbers(word), Err(format!("'{word}' is not a number")));
        }
        for hole in ["1,,2", ",1", "1,", "1, ,2"] {
            assert!(
                numbers(hole)
                    .unwrap_err()
                    .starts_with("a number is missing at a comma"),
                "{hole}"
            );
        }
    }

    #[test]
    fn corners_are_four_and_in_order() {
        let (found, mirrored) = corners("1,2 9,1 10,8 0,9").unwrap();
        assert_eq!(found, [(1.0, 2.0), (9.0, 1.0), (10.0, 8.0), (0.0, 9.0)]);
        assert!(!mirrored);
        assert!(corners("9,1 1,2 0,9 10,8").unwrap().1);
        assert!(corners("1,2 9,1 10,8").unwrap_err().ends_with("here are 6"));
        assert!(
            corners("1,2 9,1 10,8 0,9 5")
                .unwrap_err()
                .ends_with("here are 9")
        );
        assert!(
            corners("1,2 10,8 9,1 0,9")
                .unwrap_err()
                .starts_with("the corners cross")
        );
    }

    #[test]
    fn corners_on_a_line_are_told() {
        for text in [
            "0,0 1,1 2,2 3,3",
            "0,0 0,0 0,0 0,0",
            "0,0 4,0 8,0 0,6",
            "1,1 1,1 9,8 0,9",
            "1,2 9,1 10,8 1,2",
        ] {
            let told = corners(text).unwrap_err();
            assert!(told.starts_with("three of the corners"), "{text}");
        }
        assert!(corners("0,0 1e400,0 8,8 0,6").is_ok());
    }
}
