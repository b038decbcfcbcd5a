//! How a failure is told: as JSON, and where standard output or standard error can't be written.

use super::{CORNERS, Trial};
use crate::folder::{Folder, Run, small_png};
use std::fs::File;

#[test]
fn failures_in_json() {
    let trial = Trial::new("json-failures");
    let told = |run: Run, status: i32, start: &str| {
        assert_eq!(
            (run.status, run.err.as_str(), run.out.lines().count()),
            (status, "", 1),
            "{run:?}"
        );
        assert!(
            run.out.starts_with(start) && run.out.ends_with("\"}\n"),
            "{run:?}"
        );
        let object: serde_json::Value = serde_json::from_str(&run.out).expect("JSON");
        assert_eq!(object["ok"], false, "{run:?}");
        assert_eq!(object["status"], status, "{run:?}");
        assert!(trial.folder.contents() == trial.before);
    };
    let refused = trial.shift("in.png", &["--viewport", "0x0", "--json"]);
    told(
        refused,
        1,
        r#"{"ok":false,"status":1,"number":9,"word":"window","mend":"the output was to be 0x0+0+0; "#,
    );
    let missing = trial.shift("missing.png", &["--json"]);
    told(
        missing,
        2,
        r#"{"ok":false,"status":2,"error":"'missing.png' can't be read: "#,
    );
    told(
        trial.folder.run(["square", "--json"]),
        2,
        r#"{"ok":false,"status":2,"error":"The following required"#,
    );
}

#[test]
fn standard_output_that_is_full_or_closed() {
    let folder = Folder::new("stdout");
    let run = folder
        .tool()
        .arg("names")
        .stdout(dev_full())
        .output()
        .expect("runs");
    assert_eq!(run.status.code(), Some(2));
    assert!(String::from_utf8_lossy(&run.stderr).contains("standard output can't be written"));
}

/// The words of a squaring, the picture as it is.
const SQUARE: [&str; 7] = [
    "square",
    "in.png",
    "out.png",
    "--corners",
    CORNERS,
    "--size",
    "8x6",
];

/// The picture is made before anything is told of it.
#[test]
fn standard_output_that_is_full_after_the_picture_is_made() {
    for more in [&[][..], &["--json"]] {
        let folder = Folder::new("stdout-square");
        folder.write("in.png", &small_png());
        folder.write("out.png", b"the old output");
        let run = folder
            .tool()
            .args(SQUARE)
            .args(more)
            .stdout(dev_full())
            .output()
            .expect("runs");
        assert_eq!(run.status.code(), Some(2));
        let open = |name| image::open(folder.path(name)).expect("a picture");
        assert_eq!(open("out.png"), open("in.png"));
        assert_eq!(folder.contents().len(), 2);
    }
}

/// The status is the refusal's own, whether or not its message can be written.
#[test]
fn a_refusal_that_nobody_hears() {
    let trial = Trial::new("unheard");
    let refused = ["--viewport", "0x0"];
    let words = [
        "distort", "in.png", "out.png", "--method", "Affine", "--args", "0,0,1,1",
    ];
    let tool = || {
        let mut tool = trial.folder.tool();
        tool.args(words).args(refused);
        tool
    };
    let plain = tool().stderr(dev_full()).output().expect("runs");
    assert_eq!(plain.status.code(), Some(1));
    let json = tool().arg("--json").stdout(dev_full()).output();
    assert_eq!(json.expect("runs").status.code(), Some(1));
    assert!(trial.folder.contents() == trial.before);
}

fn dev_full() -> File {
    let full = File::options().write(true).open("/dev/full");
    full.expect("/dev/full")
}
