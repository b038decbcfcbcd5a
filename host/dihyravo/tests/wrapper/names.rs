//! Names: there and back by the proved readers, in any case; codes; what the error says.

use dihyravo::{Interpolate, Method, NameError, VirtualPixel, raw};
use std::fmt::{Debug, Display};
use std::str::FromStr;

/// Each name gives its case, as it stands, in capitals and in small letters.
fn there_and_back<T>(all: &[T], names: &[&str])
where
    T: FromStr<Err = NameError> + Display + Debug + PartialEq,
{
    assert_eq!(all.len(), names.len());
    for (case, &name) in all.iter().zip(names) {
        assert_eq!(case.to_string(), name);
        for name in [
            name.to_owned(),
            name.to_ascii_uppercase(),
            name.to_ascii_lowercase(),
        ] {
            assert_eq!(&name.parse::<T>().expect("a name"), case);
        }
    }
}

#[test]
fn methods() {
    there_and_back(Method::ALL, Method::NAMES);
    let codes: Vec<u64> = Method::ALL.iter().map(|m| m.code()).collect();
    assert_eq!(codes, [0, 1, 3, 4, 5, 6, 7, 11, 12, 13]);
    for code in 0..20 {
        assert_eq!(
            Method::from_code(code).map(Method::code),
            codes.contains(&code).then_some(code)
        );
    }
    assert_eq!("bilinear".parse(), Ok(Method::BilinearForward));
    assert!(Method::ALL.iter().all(|m| !m.arguments().is_empty()));
}

#[test]
fn policies() {
    there_and_back(VirtualPixel::ALL, VirtualPixel::NAMES);
    assert!(
        (0..14)
            .map(Some)
            .eq(VirtualPixel::ALL.iter().map(|p| Some(p.code())))
    );
    assert_eq!(VirtualPixel::from_code(14), None);
    assert_eq!("undefined".parse(), Ok(VirtualPixel::Edge));
    assert_eq!("None".parse(), Ok(VirtualPixel::Transparent));
    assert_eq!("Grey".parse(), Ok(VirtualPixel::Gray));
}

#[test]
fn interpolations() {
    there_and_back(Interpolate::ALL, Interpolate::NAMES);
    assert!(
        (0..9)
            .map(Some)
            .eq(Interpolate::ALL.iter().map(|p| Some(p.code())))
    );
    assert_eq!(Interpolate::from_code(9), None);
    assert_eq!("NearestNeighbor".parse(), Ok(Interpolate::Nearest));
    assert_eq!("Average4".parse(), Ok(Interpolate::Average));
    assert_eq!("bicubic".parse(), Ok(Interpolate::Catrom));
}

/// The absent methods are told from names that are none.
#[test]
fn absent_methods() {
    for (name, code) in [
        ("ScaleRotateTranslate", 2),
        ("srt", 2),
        ("Arc", 8),
        ("polar", 9),
        ("DePolar", 10),
    ] {
        assert_eq!(raw::method(name.as_bytes()), Some(code));
        let error = name.parse::<Method>().expect_err("an absent method");
        assert!(error.is_absent());
        assert_eq!(error.given(), name);
        let start = format!(
            "the method \"{name}\" is absent: the methods are Affine, AffineProjection, Perspective, "
        );
        assert!(error.to_string().starts_with(&start), "{error}");
    }
}

#[test]
fn no_names() {
    for name in [
        "", " ", "Affine ", "Affin", "Affinee", "Äffine", "affine\0", "3", "Nearest",
    ] {
        let error = name.parse::<Method>().expect_err("no method");
        assert!(!error.is_absent());
        assert_eq!(error.names(), Method::NAMES);
    }
    let error = "a\nb".parse::<VirtualPixel>().expect_err("no policy");
    let line = error.to_string();
    assert!(line.starts_with(
        "no virtual pixel policy is named \"a\\nb\": the virtual pixel policies are Edge, "
    ));
    assert!(line.ends_with(", Random") && !line.contains('\n'));
    let error = "Lanczos"
        .parse::<Interpolate>()
        .expect_err("no interpolation");
    assert!(
        error
            .to_string()
            .starts_with("no interpolation is named \"Lanczos\": the interpolations are Integer, ")
    );
}

/// A name can be put in a column.
#[test]
fn padded() {
    assert_eq!(
        format!("{:>8}|{:<6}|", Method::Affine, VirtualPixel::Edge),
        "  Affine|Edge  |"
    );
}
