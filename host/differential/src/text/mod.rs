//! A job as one line of text, `key=value` words, and back again. Every float comes back with its bits.
//!
//! A number that ends in `.0` is written without it, `v*n` is n times v, `#..` is a float that is not finite by its
//! bits in hexadecimal, and `~n` after a list is n bytes of a broken float.

mod float;
mod words;

use crate::{Job, codes};
use std::fmt;
use std::str::FromStr;
use words::{
    list, name, read_code, read_four, read_list, read_rows, read_size, read_viewport, viewport,
};

pub use float::Float;

impl fmt::Display for Job {
    fn fmt(&self, f: &mut fmt::Formatter) -> fmt::Result {
        write!(
            f,
            "method={} args={} policy={} interpolation={} bestfit={} viewport={} background={} matte={} \
             size={}x{}x{} samples={} rows={}+{} band={}",
            name(&codes::METHODS, self.method),
            list(&self.args, self.args_rest),
            name(&codes::POLICIES, self.policy),
            name(&codes::INTERPOLATIONS, self.interpolation),
            if self.bestfit { "yes" } else { "no" },
            viewport(self.viewport),
            list(&self.background, 0),
            list(&self.matte, 0),
            self.width,
            self.height,
            self.channels,
            list(&self.samples, self.samples_rest),
            self.first_row,
            self.rows,
            self.band
        )
    }
}

impl FromStr for Job {
    type Err = String;

    /// Reads the words in any order; a word that is left out is that of `Job::plain`.
    fn from_str(text: &str) -> Result<Self, String> {
        let mut job = Job::plain();
        for word in text.split_whitespace() {
            let read = word
                .split_once('=')
                .and_then(|(key, value)| job.read_word(key, value));
            read.ok_or_else(|| format!("`{word}` is no word of a job"))?;
        }
        Ok(job)
    }
}

impl Job {
    fn read_word(&mut self, key: &str, value: &str) -> Option<()> {
        match key {
            "method" => self.method = read_code(&codes::METHODS, value)?,
            "args" => (self.args, self.args_rest) = read_list(value)?,
            "policy" => self.policy = read_code(&codes::POLICIES, value)?,
            "interpolation" => self.interpolation = read_code(&codes::INTERPOLATIONS, value)?,
            "bestfit" => self.bestfit = ["no", "yes"].iter().position(|w| *w == value)? == 1,
            "viewport" => self.viewport = read_viewport(value)?,
            "background" => self.background = read_four(value)?,
            "matte" => self.matte = read_four(value)?,
            "size" => (self.width, self.height, self.channels) = read_size(value)?,
            "samples" => (self.samples, self.samples_rest) = read_list(value)?,
            "rows" => (self.first_row, self.rows) = read_rows(value)?,
            "band" => self.band = value.parse().ok()?,
            _ => return None,
        }
        Some(())
    }
}

#[cfg(test)]
mod tests {
    use crate::{Job, Window};

    #[test]
    fn a_job_reads_itself_back_with_every_bit() {
        let mut job = Job::plain();
        job.method = 99;
        job.args = vec![
            -0.0,
            5e-324,
            f64::from_bits(0x7ff8_0000_0000_0001),
            0.1,
            0.1,
        ];
        job.args_rest = 7;
        job.samples = vec![f32::NEG_INFINITY, -0.0, 0.0, 1e-45, 65536.0];
        job.samples_rest = 3;
        job.viewport = Some(Window {
            width: u64::MAX,
            height: 0,
            x: i64::MIN,
            y: -1,
        });
        let text = job.to_string();
        let back: Job = text.parse().unwrap();
        assert_eq!(back.to_string(), text);
        assert_eq!(back.args_bytes(), job.args_bytes());
        assert_eq!(back.samples_bytes(), job.samples_bytes());
        assert_eq!(back.viewport, job.viewport);
        assert!(text.contains("args=-0,5e-324,#7ff8000000000001,0.1*2~7 "));
    }

    #[test]
    fn an_empty_list_and_a_short_line_are_read() {
        let job: Job = "args= policy=Mirror".parse().unwrap();
        assert_eq!((job.args.len(), job.policy), (0, 7));
    }

    #[test]
    fn other_words_are_refused_by_name() {
        for word in [
            "method",
            "methods=1",
            "rows=1",
            "matte=1",
            "size=1x1",
            "args=1,,2",
        ] {
            let said = word.parse::<Job>().unwrap_err();
            assert_eq!(said, format!("`{word}` is no word of a job"));
        }
    }
}
