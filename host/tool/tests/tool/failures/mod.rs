//! What bad input gets: one clear line, status 1 for a refusal and 2 for all else, and nothing lost or half-written.

mod inputs;
mod outputs;
mod refusals;
mod told;
mod usage;

use crate::folder::{Folder, Run, small_png};

/// A folder with a picture and an old output that no failure may touch.
struct Trial {
    folder: Folder,
    before: Vec<(String, Vec<u8>)>,
}

impl Trial {
    fn new(test: &str) -> Self {
        let folder = Folder::new(test);
        folder.write("in.png", &small_png());
        folder.write("out.png", b"the old output");
        Self {
            before: folder.contents(),
            folder,
        }
    }

    /// A file more to begin with.
    fn with(mut self, name: &str, bytes: &[u8]) -> Self {
        self.folder.write(name, bytes);
        self.before = self.folder.contents();
        self
    }

    /// The run fails so, and the folder is as it was.
    fn fails(&self, run: Run, status: i32, words: &[&str]) {
        run.bad(status, words);
        assert!(
            self.folder.contents() == self.before,
            "the folder changed: {run:?}"
        );
    }

    fn square(&self, input: &str, corners: &str, size: &str) -> Run {
        self.folder.run([
            "square",
            input,
            "out.png",
            "--corners",
            corners,
            "--size",
            size,
        ])
    }

    fn distort(&self, input: &str, method: &str, args: &str, more: &[&str]) -> Run {
        let words = [
            "distort", input, "out.png", "--method", method, "--args", args,
        ];
        self.folder
            .tool()
            .args(words)
            .args(more)
            .output()
            .expect("the tool runs")
            .into()
    }

    fn shift(&self, input: &str, more: &[&str]) -> Run {
        self.distort(input, "Affine", "0,0 1,1", more)
    }
}

const CORNERS: &str = "0,0 8,0 8,6 0,6";
