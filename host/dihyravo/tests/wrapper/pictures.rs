//! Pictures: sizes, lengths, and where a sample lies.

use dihyravo::{Picture, Refusal};

#[test]
fn sizes() {
    let size = |w, h, c| Picture::new(w, h, c, vec![0.0; 4096]).map(|p| p.samples().len());
    assert_eq!(size(4096, 1, 1), Ok(4096));
    assert_eq!(size(1, 4096, 1), Ok(4096));
    assert_eq!(size(32, 32, 4), Ok(4096));
    assert_eq!(size(4097, 1, 1), Err(Refusal::Size));
    assert_eq!(size(1, 4097, 1), Err(Refusal::Size));
    assert_eq!(size(0, 1, 1), Err(Refusal::Size));
    assert_eq!(size(1, 0, 1), Err(Refusal::Size));
    assert_eq!(size(1 << 32, 1 << 32, 1), Err(Refusal::Size));
    for channels in [0, 2, 5, u64::MAX] {
        assert_eq!(size(32, 32, channels), Err(Refusal::Size));
    }
}

#[test]
fn wrong_lengths() {
    let length = |n| Picture::new(4, 3, 3, vec![0.0; n]).is_ok();
    assert!(length(36));
    assert!(!length(35) && !length(37) && !length(0));
    let bytes = |n| Picture::from_le_bytes(4, 3, 3, &vec![0; n]);
    assert!(bytes(144).is_ok());
    for n in [0, 140, 143, 145, 148] {
        assert_eq!(bytes(n), Err(Refusal::Stock));
    }
}

/// The size is looked at before the length, as in the table.
#[test]
fn size_before_length() {
    assert_eq!(Picture::new(0, 3, 3, vec![0.0; 5]), Err(Refusal::Size));
    assert_eq!(Picture::from_le_bytes(4, 3, 2, &[0; 5]), Err(Refusal::Size));
    assert_eq!(Picture::filled(4, 3, &[0.0; 2]), Err(Refusal::Size));
}

#[test]
fn places() {
    let mut picture =
        Picture::new(2, 2, 3, (0..12).map(|k| k as f32).collect()).expect("a picture");
    assert_eq!(picture.row(1), Some(&[6.0, 7.0, 8.0, 9.0, 10.0, 11.0][..]));
    assert_eq!(picture.pixel(1, 0), Some(&[3.0, 4.0, 5.0][..]));
    assert_eq!(picture.pixel(2, 0), None);
    assert_eq!(picture.pixel(0, 2), None);
    assert_eq!(picture.row(u64::MAX), None);
    picture.samples_mut()[3] = 0.5;
    assert_eq!(picture.pixel(1, 0), Some(&[0.5, 4.0, 5.0][..]));
    assert_eq!(picture.into_samples().len(), 12);
    let filled = Picture::filled(3, 2, &[1.0, 2.0, 3.0, 4.0]).expect("a picture");
    assert_eq!(
        (filled.width(), filled.height(), filled.channels()),
        (3, 2, 4)
    );
    assert_eq!(filled.pixel(2, 1), Some(&[1.0, 2.0, 3.0, 4.0][..]));
}

/// Every bit goes through, those of what is no number too.
#[test]
fn bytes_and_back() {
    let patterns = [
        0,
        1,
        0x8000_0000,
        0x3f80_0001,
        0x7f80_0000,
        0x7fc1_2345,
        0xffff_ffff,
        0x0102_0304,
    ];
    let samples = patterns.iter().map(|&x| f32::from_bits(x)).collect();
    let picture = Picture::new(8, 1, 1, samples).expect("a picture");
    let bytes = picture.to_le_bytes();
    assert_eq!(bytes[28..], [4, 3, 2, 1]);
    let back = Picture::from_le_bytes(8, 1, 1, &bytes).expect("the same picture");
    assert_eq!(crate::jobs::bits(back.samples()), patterns);
}

/// Not a line for each sample.
#[test]
fn printed() {
    let picture = Picture::filled(640, 480, &[0.0; 3]).expect("a picture");
    assert_eq!(format!("{picture:?}"), "Picture { 640 by 480, 3 channels }");
}
