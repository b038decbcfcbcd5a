//! Outputs that can't be made or put in place: formats, memory, folders, links, permissions, disks that are full. The
//! old file stays, and nothing half-written is left.

use super::Trial;
use crate::folder::{Folder, Run, small_png};
use std::fs::{self, File};
use std::os::unix::fs::{PermissionsExt, symlink};
use std::process::Command;

#[test]
fn alpha_that_the_format_can_not_hold() {
    let trial = Trial::new("alpha");
    let words = [
        "distort",
        "in.png",
        "out.jpg",
        "--method",
        "Affine",
        "--args",
        "0,0,1,1",
        "--virtual-pixel",
        "transparent",
    ];
    trial.fails(
        trial.folder.run(words),
        2,
        &["JPEG has no alpha: write PNG or TIFF"],
    );
}

#[test]
fn colours_that_the_format_can_not_hold() {
    let trial = Trial::new("colours");
    let words = [
        "distort", "in.png", "out.pgm", "--method", "Affine", "--args", "0,0,1,1",
    ];
    trial.fails(
        trial.folder.run(words),
        2,
        &["the picture has three colour channels and PGM has one: write PPM or another format"],
    );
}

/// Twice the output's 201 MB are asked for, where 200 MB of addresses are to be had.
#[test]
fn memory_that_is_not_there_is_told() {
    let trial = Trial::new("no-memory");
    let tool = env!("CARGO_BIN_EXE_dihyravo");
    let job =
        "distort in.png out.png --method Affine --args 0,0,0,0 --viewport 4096x4096 --threads 1";
    let shell = |more: &str| -> Run {
        let line = format!("ulimit -v 200000 && exec {tool} {job} {more}");
        let mut command = Command::new("sh");
        let folder = trial.folder.path(".");
        let run = command.args(["-c", &line]).current_dir(folder).output();
        run.expect("a shell").into()
    };
    trial.fails(shell(""), 2, &["no memory for an output of 4096x4096"]);
    let told = shell("--json");
    assert_eq!(told.status, 2, "{told:?}");
    assert!(
        told.out.starts_with(r#"{"ok":false,"status":2,"error":"#),
        "{told:?}"
    );
}

#[test]
fn folders_that_are_missing_or_read_only() {
    let trial = Trial::new("folders");
    let into = |output: &str| {
        trial.folder.run([
            "distort", "in.png", output, "--method", "Affine", "--args", "0,0,1,1",
        ])
    };
    trial.fails(
        into("missing/out.png"),
        2,
        &["'missing/out.png' can't be written: its folder: No such file"],
    );
    trial.fails(into("in.png/out.png"), 2, &["can't be written: its folder"]);
    // Whoever is root may write into a folder that is read-only; nobody may into this one.
    trial.fails(
        into("/proc/out.png"),
        2,
        &["'/proc/out.png' can't be written: "],
    );
    symlink("missing/far.png", trial.folder.path("link.png")).expect("a link");
    into("link.png").bad(
        2,
        &["'link.png' can't be written: its folder: No such file"],
    );
    symlink("ring.png", trial.folder.path("ring.png")).expect("a link");
    into("ring.png").bad(2, &["'ring.png' can't be written: Too many levels"]);
    assert!(trial.folder.path("ring.png").is_symlink());
    fs::create_dir(trial.folder.path("folder.png")).expect("a folder");
    into("folder.png").bad(2, &["'folder.png' can't be written: it is a folder"]);
}

/// Root may write into a folder without permission, but not into one that is mounted read-only.
#[test]
fn a_folder_that_may_not_be_written() {
    let folder = Folder::new("read-only");
    folder.write("in.png", &small_png());
    let inner = folder.path("inner");
    fs::create_dir(&inner).expect("a folder");
    fs::write(inner.join("out.png"), b"old").expect("a file");
    fs::set_permissions(&inner, fs::Permissions::from_mode(0o555)).expect("permissions");
    let root = File::create(inner.join("probe")).is_ok();
    let _ = fs::remove_file(inner.join("probe"));
    let words = "distort in.png inner/out.png --method Affine --args 0,0,1,1";
    let run = if root {
        let script = format!(
            "mount --bind inner inner 2>/dev/null && mount -o remount,bind,ro inner 2>/dev/null || exit 77; \
             exec \"$0\" {words}"
        );
        let tool = env!("CARGO_BIN_EXE_dihyravo");
        Command::new("unshare")
            .args(["-m", "sh", "-c", &script, tool])
            .current_dir(folder.path("."))
            .output()
    } else {
        folder.tool().args(words.split(' ')).output()
    };
    match run.map(Run::from) {
        Ok(run) if run.status == 77 || run.err.starts_with("unshare") => {
            println!(
                "skipped: a_folder_that_may_not_be_written: root may write everywhere and nothing can be mounted here"
            );
        }
        Ok(run) => run.bad(
            2,
            &[
                "inner/out.png' can't be written: ",
                if root { "Read-only" } else { "denied" },
            ],
        ),
        Err(_) => println!("skipped: a_folder_that_may_not_be_written: there is no unshare"),
    }
    assert_eq!(folder.read("inner/out.png"), b"old");
    assert_eq!(fs::read_dir(&inner).expect("the folder").count(), 1);
    fs::set_permissions(&inner, fs::Permissions::from_mode(0o755)).expect("permissions");
}

#[test]
fn an_output_that_is_read_only_stays() {
    let trial = Trial::new("read-only-file");
    let output = trial.folder.path("out.png");
    fs::set_permissions(&output, fs::Permissions::from_mode(0o444)).expect("permissions");
    trial.fails(
        trial.shift("in.png", &[]),
        2,
        &["'out.png' can't be written: it is there and read-only"],
    );
}

#[test]
fn a_disk_that_is_full_from_the_first_byte() {
    let folder = Folder::new("dev-full");
    folder.write("in.png", &small_png());
    symlink("/dev/full", folder.path("full.png")).expect("a link");
    let run = folder.run([
        "distort", "in.png", "full.png", "--method", "Affine", "--args", "0,0,1,1",
    ]);
    run.bad(2, &["'full.png' can't be written: No space left on device"]);
}

/// A limit on the length of files stands for a disk that fills up in the middle.
#[test]
fn a_file_that_can_only_be_written_by_half() {
    let trial = Trial::new("half");
    let words = "distort in.png out.png --method Affine --args 0,0,1,1 --viewport 300x300 --virtual-pixel random";
    let script = format!("trap '' XFSZ; ulimit -f 1; exec \"$0\" {words}");
    let tool = env!("CARGO_BIN_EXE_dihyravo");
    let run = Command::new("sh")
        .args(["-c", &script, tool])
        .current_dir(trial.folder.path("."))
        .output();
    trial.fails(
        run.expect("a shell").into(),
        2,
        &["can't be written: File too large"],
    );
}

/// A disk of 16 KB that fills up, where one may be mounted for this test alone.
#[test]
fn a_small_disk_that_fills_up() {
    let folder = Folder::new("small-disk");
    folder.write("in.png", &small_png());
    fs::create_dir(folder.path("disk")).expect("a folder");
    let script = "mount -t tmpfs -o size=16k tmpfs disk 2>/dev/null || exit 77; echo old >disk/out.png; \
        \"$0\" distort in.png disk/out.png --method Affine --args 0,0,1,1 --viewport 300x300 --virtual-pixel random; \
        status=$?; [ \"$(ls -A disk)\" = out.png ] && [ \"$(cat disk/out.png)\" = old ] || status=99; exit $status";
    let tool = env!("CARGO_BIN_EXE_dihyravo");
    let run = Command::new("unshare")
        .args(["-m", "sh", "-c", script, tool])
        .current_dir(folder.path("."))
        .output();
    match run.map(Run::from) {
        Ok(run) if run.status == 2 && run.err.starts_with("dihyravo: ") => {
            run.bad(2, &["can't be written: No space left on device"]);
        }
        Ok(run) if run.status == 99 => {
            panic!("the old output is lost or something is left: {run:?}")
        }
        Ok(run) if run.status == 0 => panic!("the disk was large enough"),
        _ => println!("skipped: a_small_disk_that_fills_up: no disk can be mounted here"),
    }
}
