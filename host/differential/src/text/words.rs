//! The values of a job's words: lists, codes, the viewport, the size, the rows.

use super::Float;
use crate::Window;
use std::fmt::Write;

pub(super) fn list<F: Float>(values: &[F], rest: usize) -> String {
    let mut text = String::new();
    let mut k = 0;
    while k < values.len() {
        let run = values[k..].iter().take_while(|v| v.same(values[k])).count();
        if k > 0 {
            text.push(',');
        }
        text += &values[k].write();
        if run > 1 {
            write!(text, "*{run}").expect("a string takes all");
        }
        k += run;
    }
    if rest > 0 {
        write!(text, "~{rest}").expect("a string takes all");
    }
    text
}

pub(super) fn read_list<F: Float>(text: &str) -> Option<(Vec<F>, usize)> {
    let (text, rest) = match text.split_once('~') {
        Some((text, rest)) => (text, rest.parse().ok()?),
        None => (text, 0),
    };
    let mut values = Vec::new();
    for word in text.split(',').filter(|_| !text.is_empty()) {
        let (value, count) = match word.split_once('*') {
            Some((value, count)) => (value, count.parse().ok()?),
            None => (word, 1),
        };
        values.extend(std::iter::repeat_n(F::read(value)?, count));
    }
    Some((values, rest))
}

pub(super) fn read_four(text: &str) -> Option<[f32; 4]> {
    let (values, rest) = read_list(text)?;
    values.try_into().ok().filter(|_| rest == 0)
}

pub(super) fn name(names: &[&str], code: u64) -> String {
    match names.get(code as usize) {
        Some(name) => name.to_string(),
        None => code.to_string(),
    }
}

pub(super) fn read_code(names: &[&str], text: &str) -> Option<u64> {
    match names.iter().position(|name| *name == text) {
        Some(code) => Some(code as u64),
        None => text.parse().ok(),
    }
}

pub(super) fn viewport(window: Option<Window>) -> String {
    match window {
        None => "none".into(),
        Some(w) => format!("{}x{}@{},{}", w.width, w.height, w.x, w.y),
    }
}

pub(super) fn read_viewport(text: &str) -> Option<Option<Window>> {
    if text == "none" {
        return Some(None);
    }
    let (size, offset) = text.split_once('@')?;
    let (width, height) = size.split_once('x')?;
    let (x, y) = offset.split_once(',')?;
    Some(Some(Window {
        width: width.parse().ok()?,
        height: height.parse().ok()?,
        x: x.parse().ok()?,
        y: y.parse().ok()?,
    }))
}

pub(super) fn read_size(text: &str) -> Option<(u64, u64, u64)> {
    let mut numbers = text.split('x').map(|n| n.parse().ok());
    let size = (numbers.next()??, numbers.next()??, numbers.next()??);
    numbers.next().is_none().then_some(size)
}

pub(super) fn read_rows(text: &str) -> Option<(u64, u64)> {
    let (first, rows) = text.split_once('+')?;
    Some((first.parse().ok()?, rows.parse().ok()?))
}
