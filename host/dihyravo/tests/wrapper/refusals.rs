//! Each refusal's number through the builder, and the words of all.

use crate::jobs::{arguments, picture};
use dihyravo::{Distort, Method, Picture, Refusal, Viewport};
use std::error::Error;

fn refusal(distort: &Distort, picture: &Picture) -> Option<u64> {
    let by_size = distort.size(picture).err();
    assert_eq!(distort.distort(picture).err(), by_size);
    by_size.map(Refusal::number)
}

fn refused(method: Method, args: &[f64]) -> Option<u64> {
    refusal(&Distort::new(method, args), &picture(19, 13, 3))
}

#[test]
fn accepted() {
    for &method in Method::ALL {
        assert_eq!(refused(method, &arguments(method)), None, "{method}");
    }
}

#[test]
fn by_the_picture() {
    let number = |made: Result<Picture, Refusal>| made.err().map(Refusal::number);
    assert_eq!(number(Picture::new(4097, 1, 1, vec![0.0; 4097])), Some(1));
    assert_eq!(number(Picture::new(4, 3, 3, vec![0.0; 35])), Some(2));
}

#[test]
fn by_the_arguments() {
    assert_eq!(
        "Arc".parse::<Method>().map_err(|e| e.refusal().number()),
        Err(3)
    );
    assert_eq!(refused(Method::Barrel, &[0.0; 258]), Some(4));
    assert_eq!(refused(Method::Barrel, &[0.0; 257]), None);
    assert_eq!(refused(Method::Affine, &[0.0; 6]), Some(4));
    assert_eq!(refused(Method::AffineProjection, &[]), Some(4));
    assert_eq!(refused(Method::Affine, &[0.0, 0.0, 0.0, f64::NAN]), Some(5));
    assert_eq!(
        refused(Method::Affine, &[0.0, 0.0, 0.0, 1_048_576.0f64.next_up()]),
        Some(5)
    );
    let one_pair = |order: f64| refused(Method::Polynomial, &[order, 0.0, 0.0, 0.0, 0.0]);
    for bad in [6.0, 2.5, 0.5, -0.0, 5.5] {
        assert_eq!(one_pair(bad), Some(6), "order {bad:?}");
    }
    for good in [1.0f64, 1.5, 2.0, 3.0, 4.0, 5.0] {
        assert_eq!(one_pair(good), Some(7), "order {good:?}");
        assert_eq!(one_pair(good.next_up()), Some(6), "above {good:?}");
        assert_eq!(one_pair(good.next_down()), Some(6), "below {good:?}");
    }
    assert_eq!(refused(Method::Perspective, &[0.0; 12]), Some(7));
    assert_eq!(refused(Method::Perspective, &[0.0; 16]), Some(8));
    assert_eq!(
        refused(Method::AffineProjection, &[1.0, 2.0, 2.0, 4.0, 0.0, 0.0]),
        Some(8)
    );
}

#[test]
fn by_the_numbers() {
    let plain = Distort::new(Method::Affine, [0.0; 4]);
    let mut wild = picture(19, 13, 3);
    *wild.samples_mut().last_mut().expect("a sample") = -65_536.0f32.next_up();
    assert_eq!(refusal(&plain, &wild), Some(5));
    *wild.samples_mut().last_mut().expect("a sample") = -65_536.0;
    assert_eq!(refusal(&plain, &wild), None);
    let background = plain
        .clone()
        .with_background([0.0, 0.0, f32::INFINITY, 1.0]);
    assert_eq!(refusal(&background, &picture(19, 13, 3)), Some(5));
    let matte = plain.with_matte([0.0, 0.0, 0.0, f32::NAN]);
    assert_eq!(refusal(&matte, &picture(19, 13, 3)), Some(5));
}

#[test]
fn by_the_window_and_the_band() {
    let picture = picture(19, 13, 3);
    let plain = Distort::new(Method::Affine, [0.0; 4]);
    let viewport = Viewport {
        width: 0,
        height: 0,
        x: 0,
        y: 0,
    };
    assert_eq!(
        refusal(&plain.clone().with_viewport(viewport), &picture),
        Some(9)
    );
    let far = Distort::new(Method::AffineProjection, [1e3, 0.0, 0.0, 1e3, 0.0, 0.0]);
    assert_eq!(refusal(&far.clone().with_bestfit(true), &picture), Some(9));
    assert_eq!(refusal(&far, &picture), None);
    let number = |rows, band: &mut [f32]| {
        plain
            .distort_rows(&picture, rows, band)
            .map_err(Refusal::number)
    };
    assert_eq!(number(13..14, &mut [0.0; 57]), Err(10));
    assert_eq!(number(0..1, &mut [0.0; 56]), Err(11));
    assert!(number(0..1, &mut [0.0; 57]).is_ok());
}

/// The words of specification 2, in its order.
#[test]
fn words() {
    let words = [
        "size",
        "stock",
        "code",
        "count",
        "number",
        "order",
        "few",
        "degenerate",
        "window",
        "rows",
        "tray",
    ];
    assert_eq!(Refusal::ALL.map(Refusal::word), words);
    for (k, refusal) in (1..).zip(Refusal::ALL) {
        assert_eq!(refusal.number(), k);
        assert_eq!(Refusal::from_number(k), Some(refusal));
        let line = refusal.to_string();
        assert_eq!(
            line,
            format!("refusal {k} ({}): {}", refusal.word(), refusal.mend())
        );
        let mend = refusal.mend();
        assert!(
            mend.contains("; ") && mend.is_ascii() && !mend.ends_with('.') && !mend.contains("  ")
        );
    }
    assert_eq!([0, 12, u64::MAX].map(Refusal::from_number), [None; 3]);
}

#[test]
fn an_error_like_others() {
    let error: Box<dyn Error> = Refusal::Few.into();
    assert!(
        error
            .to_string()
            .starts_with("refusal 7 (few): too few pairs;")
    );
    let from_a_name: Refusal = "nothing".parse::<Method>().expect_err("no method").into();
    assert_eq!(from_a_name, Refusal::Code);
}
