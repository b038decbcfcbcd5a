//! The letters and digits that stand on the card, five by seven dots each.

/// The dots of a letter, row for row, the left dot in the highest of five bits. Others are blank.
fn dots(letter: char) -> [u8; 7] {
    match letter {
        'A' => [14, 17, 17, 31, 17, 17, 17],
        'B' => [30, 17, 17, 30, 17, 17, 30],
        'C' => [14, 17, 16, 16, 16, 17, 14],
        'D' => [30, 17, 17, 17, 17, 17, 30],
        'E' => [31, 16, 16, 30, 16, 16, 31],
        'F' => [31, 16, 16, 30, 16, 16, 16],
        'I' => [14, 4, 4, 4, 4, 4, 14],
        'N' => [17, 25, 21, 19, 17, 17, 17],
        'R' => [30, 17, 17, 30, 20, 18, 17],
        'T' => [31, 4, 4, 4, 4, 4, 4],
        '0' => [14, 17, 19, 21, 25, 17, 14],
        '1' => [4, 12, 4, 4, 4, 4, 14],
        '2' => [14, 17, 1, 6, 8, 16, 31],
        '3' => [30, 1, 1, 14, 1, 1, 30],
        '4' => [2, 6, 10, 18, 31, 2, 2],
        _ => [0; 7],
    }
}

/// Whether the text, whose top-left corner is the origin, has ink at x, y. A dot is `dot` wide.
pub fn ink(text: &str, dot: f64, x: f64, y: f64) -> bool {
    let (column, row) = ((x / dot).floor(), (y / dot).floor());
    if column < 0.0 || !(0.0..7.0).contains(&row) {
        return false;
    }
    let (column, row) = (column as usize, row as usize);
    let Some(letter) = text.chars().nth(column / 6) else {
        return false;
    };
    let within = column % 6;
    within < 5 && dots(letter)[row] >> (4 - within) & 1 == 1
}
