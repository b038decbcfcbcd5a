//! A folder for one test, and runs of the tool in it.

use std::fs;
use std::path::{Path, PathBuf};
use std::process::{Command, Output};

pub struct Folder(PathBuf);

/// What a run printed, and its exit status.
#[derive(Debug)]
pub struct Run {
    pub status: i32,
    pub out: String,
    pub err: String,
}

impl From<Output> for Run {
    fn from(output: Output) -> Self {
        Self {
            status: output.status.code().expect("the tool ended by itself"),
            out: String::from_utf8(output.stdout).expect("text"),
            err: String::from_utf8(output.stderr).expect("text"),
        }
    }
}

impl Run {
    /// Ended well, with one line.
    pub fn good(&self) -> &Self {
        assert_eq!(
            (self.status, self.err.as_str(), self.out.lines().count()),
            (0, "", 1),
            "{self:?}"
        );
        self
    }

    /// Failed with this status and one line on standard error that has each of the words.
    pub fn bad(&self, status: i32, words: &[&str]) {
        assert_eq!(
            (self.status, self.out.as_str(), self.err.lines().count()),
            (status, "", 1),
            "{self:?}"
        );
        assert!(self.err.starts_with("dihyravo: "), "{self:?}");
        for word in words {
            assert!(self.err.contains(word), "{word}: {self:?}");
        }
    }
}

impl Folder {
    /// Empty, and of this test alone.
    pub fn new(test: &str) -> Self {
        let path = Path::new(env!("CARGO_TARGET_TMPDIR")).join(format!("tool-{test}"));
        let _ = fs::remove_dir_all(&path);
        fs::create_dir_all(&path).expect("a folder");
        Self(path)
    }

    pub fn path(&self, name: &str) -> PathBuf {
        self.0.join(name)
    }

    pub fn write(&self, name: &str, bytes: &[u8]) {
        fs::write(self.path(name), bytes).expect("a file");
    }

    pub fn read(&self, name: &str) -> Vec<u8> {
        fs::read(self.path(name)).expect("a file")
    }

    /// The tool, in this folder.
    pub fn tool(&self) -> Command {
        let mut command = Command::new(env!("CARGO_BIN_EXE_dihyravo"));
        command.current_dir(&self.0);
        command
    }

    pub fn run<const N: usize>(&self, words: [&str; N]) -> Run {
        self.tool()
            .args(words)
            .output()
            .expect("the tool runs")
            .into()
    }

    /// Every name in the folder with its bytes, in order.
    pub fn contents(&self) -> Vec<(String, Vec<u8>)> {
        let entries = fs::read_dir(&self.0).expect("the folder");
        let mut all: Vec<(String, Vec<u8>)> = entries
            .map(|entry| {
                let entry = entry.expect("an entry");
                let bytes = if entry.path().is_file() {
                    fs::read(entry.path()).expect("a file")
                } else {
                    Vec::new()
                };
                (entry.file_name().to_string_lossy().into_owned(), bytes)
            })
            .collect();
        all.sort();
        all
    }
}

/// A small picture as PNG: 8 bits, three channels, no two pixels alike.
pub fn small_png() -> Vec<u8> {
    let pixels: Vec<u8> = (0..8u8 * 6).flat_map(|k| [k * 5, 255 - k * 3, k]).collect();
    let mut bytes = std::io::Cursor::new(Vec::new());
    let format = image::ImageOutputFormat::Png;
    image::write_buffer_with_format(&mut bytes, &pixels, 8, 6, image::ColorType::Rgb8, format)
        .expect("a PNG");
    bytes.into_inner()
}
