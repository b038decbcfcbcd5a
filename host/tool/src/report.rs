//! What a run prints: a line for people, one JSON object for programs.

use crate::failure::{Failure, one_line};
use crate::job::Made;
use serde::ser::Error;
use serde::{Serialize, Serializer};
use serde_json::value::RawValue;
use std::time::Duration;

/// The line about a picture that was made.
pub fn made(made: &Made) -> String {
    let Made {
        width,
        height,
        x,
        y,
        channels,
        matte_pixels,
        ..
    } = made;
    let place = one_line(&made.output.to_string_lossy());
    let (format, bits) = (made.format, made.depth.bits());
    let channels = match channels {
        1 => "1 channel".to_owned(),
        more => format!("{more} channels"),
    };
    let matte = match matte_pixels {
        1 => "1 matte pixel".to_owned(),
        more => format!("{more} matte pixels"),
    };
    let seconds = made.whole.as_secs_f64();
    format!(
        "{place}: {format}, {width}x{height}{x:+}{y:+}, {channels} of {bits} bits, {matte}, {seconds:.2} s"
    )
}

#[derive(Serialize)]
struct MadeObject<'a> {
    ok: bool,
    output: &'a str,
    format: String,
    bits: u32,
    width: u64,
    height: u64,
    x: i64,
    y: i64,
    channels: u64,
    matte_pixels: u64,
    #[serde(serialize_with = "six_places")]
    distort_seconds: Duration,
    #[serde(serialize_with = "six_places")]
    seconds: Duration,
    #[serde(skip_serializing_if = "Option::is_none")]
    note: Option<String>,
}

/// Seconds with six places, those that are 0 too.
fn six_places<S: Serializer>(time: &Duration, to: S) -> Result<S::Ok, S::Error> {
    let digits = format!("{:.6}", time.as_secs_f64());
    let number = RawValue::from_string(digits).map_err(S::Error::custom)?;
    number.serialize(to)
}

pub fn made_json(made: &Made) -> String {
    json(&MadeObject {
        ok: true,
        output: &made.output.to_string_lossy(),
        format: made.format.to_string(),
        bits: made.depth.bits(),
        width: made.width,
        height: made.height,
        x: made.x,
        y: made.y,
        channels: made.channels,
        matte_pixels: made.matte_pixels,
        distort_seconds: made.distort,
        seconds: made.whole,
        note: (!made.notes.is_empty()).then(|| made.notes.join("; ")),
    })
}

/// A refusal has number, word and mend; another failure an error.
#[derive(Serialize)]
#[serde(untagged)]
enum FailureObject<'a> {
    Refused {
        ok: bool,
        status: u8,
        number: u64,
        word: &'a str,
        mend: String,
    },
    Unusable {
        ok: bool,
        status: u8,
        error: String,
    },
}

pub fn failure_json(failure: &Failure) -> String {
    let (ok, status) = (false, failure.status());
    json(&match failure {
        Failure::Refused { refusal, .. } => FailureObject::Refused {
            ok,
            status,
            number: refusal.number(),
            word: refusal.word(),
            mend: one_line(&failure.mend()),
        },
        Failure::Unusable(what) => FailureObject::Unusable {
            ok,
            status,
            error: one_line(what),
        },
    })
}

/// One line of JSON, with the fields in the order that they are declared in.
pub fn json(value: &impl Serialize) -> String {
    serde_json::to_string(value).expect("texts, numbers and lists of them are JSON")
}

#[cfg(test)]
mod tests {
    use super::*;
    use crate::file::{Depth, Format};
    use dihyravo::Refusal;

    #[test]
    fn texts_are_escaped() {
        assert_eq!(json(&"a\"b\\c\nd é"), "\"a\\\"b\\\\c\\nd é\"");
    }

    #[test]
    fn a_picture_has_its_fields() {
        let mut made = Made {
            output: "a\tb.pgm".into(),
            format: Format::Pgm,
            depth: Depth::Sixteen,
            width: 4,
            height: 3,
            channels: 1,
            x: -2,
            y: 0,
            matte_pixels: 5,
            distort: Duration::from_millis(140),
            whole: Duration::from_nanos(12_000_000_400),
            notes: Vec::new(),
        };
        let start = concat!(
            r#"{"ok":true,"output":"a\tb.pgm","format":"PGM","bits":16,"width":4,"height":3,"x":-2,"y":0,"#,
            r#""channels":1,"matte_pixels":5,"distort_seconds":0.140000,"seconds":12.000000"#
        );
        assert_eq!(made_json(&made), format!("{start}}}"));
        made.notes = vec!["one".to_owned(), "two".to_owned()];
        let noted = r#","note":"one; two"}"#;
        assert_eq!(made_json(&made), format!("{start}{noted}"));
    }

    #[test]
    fn failures_have_their_fields() {
        let refused = failure_json(&Failure::from(Refusal::Degenerate));
        let start =
            r#"{"ok":false,"status":1,"number":8,"word":"degenerate","mend":"no mapping fits; "#;
        assert!(refused.starts_with(start), "{refused}");
        let other = failure_json(&Failure::unusable("no \"such\"\nfile"));
        assert_eq!(
            other,
            r#"{"ok":false,"status":2,"error":"no \"such\" file"}"#
        );
    }
}
