//! What is written wrongly or was meant otherwise: options, numbers, corners, sizes, colours.

use super::{CORNERS, Trial};

#[test]
fn usage_that_is_wrong() {
    let trial = Trial::new("usage");
    trial.fails(trial.folder.run([]), 2, &["a command is missing"]);
    trial.fails(
        trial.folder.run(["sqare", "in.png", "out.png"]),
        2,
        &["sqare"],
    );
    trial.fails(
        trial.folder.run(["square", "in.png", "out.png"]),
        2,
        &["--corners", "--size", "--help"],
    );
    trial.fails(trial.shift("in.png", &["--sharpen"]), 2, &["--sharpen"]);
    trial.fails(
        trial.shift("in.png", &["--quality", "0"]),
        2,
        &["--quality"],
    );
    trial.fails(
        trial.shift("in.png", &["--threads", "0"]),
        2,
        &["--threads"],
    );
    trial.fails(trial.shift("in.png", &["--rows", "0"]), 2, &["--rows"]);
    trial.fails(trial.shift("in.png", &["--depth", "12"]), 2, &["--depth"]);
    trial.fails(
        trial.shift("in.png", &["--depth", "32"]),
        2,
        &["--depth", "PNG has no depth of 32 bits"],
    );
    let ending = trial.folder.run([
        "square",
        "in.png",
        "out.gif",
        "--corners",
        CORNERS,
        "--size",
        "8x6",
    ]);
    trial.fails(
        ending,
        2,
        &["'out.gif' names no format: let it end in .png"],
    );
}

#[test]
fn bad_usage_names_the_help_of_its_command() {
    let trial = Trial::new("help-named");
    let run = trial.shift("in.png", &["--nothing"]);
    trial.fails(run, 2, &["--nothing", "(see 'dihyravo distort --help')"]);
    let run = trial.shift("in.png", &["--quality", "-1"]);
    trial.fails(run, 2, &["-1", "--quality", "1..=100"]);
    let run = trial.shift("in.png", &["--viewport", "-100x80"]);
    trial.fails(run, 2, &["--viewport", "-100x80"]);
    let run = trial.folder.run(["squire"]);
    trial.fails(run, 2, &["squire", "(see 'dihyravo --help')"]);
}

#[test]
fn corners_that_are_none() {
    let trial = Trial::new("corners");
    trial.fails(
        trial.square("in.png", "0,0 8,0 8,6", "8x6"),
        2,
        &["--corners", "four corners", "here are 6"],
    );
    trial.fails(
        trial.square("in.png", "0,0 8,0 8,6 0,6 1,1", "8x6"),
        2,
        &["four corners", "here are 10"],
    );
    trial.fails(
        trial.square("in.png", "0,0 8,O 8,6 0,6", "8x6"),
        2,
        &["'O' is not a number"],
    );
    trial.fails(
        trial.square("in.png", "0,0 8,6 8,0 0,6", "8x6"),
        2,
        &["the corners cross"],
    );
    trial.fails(
        trial.square("in.png", CORNERS, "8by6"),
        2,
        &["--size", "'8by6' is not a size"],
    );
}

#[test]
fn numbers_and_colours_that_are_none() {
    let trial = Trial::new("numbers");
    trial.fails(
        trial.distort("in.png", "Affine", "0,0,1,x", &[]),
        2,
        &["--args", "'x' is not a number"],
    );
    trial.fails(
        trial.distort("in.png", "Affine", "0,,1,1", &[]),
        2,
        &["a number is missing"],
    );
    trial.fails(
        trial.shift("in.png", &["--viewport", "8x"]),
        2,
        &["--viewport", "is not a geometry"],
    );
    trial.fails(
        trial.shift("in.png", &["--background", "pinkish"]),
        2,
        &["--background", "is not a colour"],
    );
    trial.fails(
        trial.shift("in.png", &["--matte", "#12"]),
        2,
        &["--matte", "is not a colour"],
    );
}

#[test]
fn numbers_that_were_meant_otherwise() {
    let trial = Trial::new("meant-otherwise");
    for corners in ["0,0 0,0 8,6 0,6", "0,0 4,0 8,0 0,6", "0,0 1,1 2,2 3,3"] {
        let run = trial.square("in.png", corners, "8x6");
        trial.fails(
            run,
            2,
            &["--corners", "three of the corners lie on one line"],
        );
    }
    for method in ["Barrel", "BarrelInverse"] {
        for (args, count) in [
            ("0,0,0,1,4", 5),
            ("0,0,0,1,4,3,0", 7),
            ("0,0,0,1,0,0,0,1", 8),
        ] {
            let run = trial.distort("in.png", method, args, &[]);
            let count = format!("here are {count}");
            trial.fails(run, 2, &["--args", method, "3, 4 or 6 numbers", &count]);
        }
        let run = trial.distort("in.png", method, "0,0", &[]);
        trial.fails(run, 1, &["refusal 4 (count)", "was given 2 numbers"]);
    }
    let run = trial.shift("in.png", &["--background", "255,0,0,255"]);
    trial.fails(run, 2, &["--background", "is not a colour", "1 is full"]);
    let run = trial.distort("in.png", "Polynomial", "6 1,1 2,2", &[]);
    trial.fails(run, 1, &["refusal 6 (order): the order is 6.0;"]);
}
