//! One run: what was asked for, read from the command line; the picture made; what is known of a refusal.

use crate::arguments::{Distort, Options, Square};
use crate::failure::Failure;
use crate::file::{self, Depth, Format, Loaded, Target};
use crate::progress;
use crate::remarks;
use crate::text;
use dihyravo::{Distorted, Method, NameError, Picture, Refusal, Viewport};
use std::path::{Path, PathBuf};
use std::str::FromStr;
use std::time::{Duration, Instant};

/// Everything that a run needs, read and understood.
pub struct Job {
    input: PathBuf,
    output: PathBuf,
    format: Format,
    depth: Option<Depth>,
    quality: u8,
    method: Method,
    args: Vec<f64>,
    /// Whether the arguments are corners and a size.
    square: bool,
    viewport: Option<Viewport>,
    background: [f32; 4],
    matte: [f32; 4],
    distort: dihyravo::Distort,
    show_progress: bool,
    /// Remarks that do not stop the run.
    notes: Vec<String>,
}

/// What a run made.
pub struct Made {
    pub output: PathBuf,
    pub format: Format,
    pub depth: Depth,
    pub width: u64,
    pub height: u64,
    pub channels: u64,
    pub x: i64,
    pub y: i64,
    pub matte_pixels: u64,
    /// The warp alone.
    pub distort: Duration,
    /// Reading and writing too.
    pub whole: Duration,
    /// Remarks that did not stop the run.
    pub notes: Vec<String>,
}

impl Job {
    pub fn from_distort(given: &Distort) -> Result<Self, Failure> {
        let args = option("--args", text::numbers(&given.args))?;
        let viewport = given.viewport.as_deref().map(text::geometry).transpose();
        let viewport = option("--viewport", viewport)?;
        let method = named(&given.method)?;
        option("--args", barrel_numbers(method, args.len()))?;
        let mut job = Self::new(
            &given.input,
            &given.output,
            method,
            args,
            viewport,
            &given.options,
        )?;
        let no_viewport = given.viewport.is_none();
        job.notes
            .extend(remarks::best_fit(method, given.best_fit && no_viewport));
        job.distort = job.distort.with_bestfit(given.best_fit);
        Ok(job)
    }

    /// The corners of the photograph go to the corners of the output, by `Perspective`.
    pub fn from_square(given: &Square) -> Result<Self, Failure> {
        let (corners, mirrored) = option("--corners", text::corners(&given.corners))?;
        let (width, height) = option("--size", text::size(&given.size))?;
        let (w, h) = (width as f64, height as f64);
        let places = [(0.0, 0.0), (w, 0.0), (w, h), (0.0, h)];
        let pairs = corners.iter().zip(places);
        let args = pairs.flat_map(|(&(u, v), (x, y))| [u, v, x, y]).collect();
        let viewport = Some(Viewport {
            width,
            height,
            x: 0,
            y: 0,
        });
        let mut job = Self::new(
            &given.input,
            &given.output,
            Method::Perspective,
            args,
            viewport,
            &given.options,
        )?;
        job.square = true;
        if mirrored {
            let note = "the corners run counter-clockwise, so the picture is mirrored";
            job.notes.push(note.to_owned());
        }
        Ok(job)
    }

    fn new(
        input: &Path,
        output: &Path,
        method: Method,
        args: Vec<f64>,
        viewport: Option<Viewport>,
        options: &Options,
    ) -> Result<Self, Failure> {
        let background = option("--background", text::colour(&options.background))?;
        let matte = option("--matte", text::colour(&options.matte))?;
        let depth = options
            .depth
            .as_deref()
            .and_then(|bits| Depth::from_bits(bits.parse().ok()?));
        let format = Format::of(output).map_err(Failure::unusable)?;
        option("--depth", format.depth(depth, Depth::Eight))?;
        let mut distort = dihyravo::Distort::new(method, args.clone())
            .with_virtual_pixel(named(&options.virtual_pixel)?)
            .with_interpolate(named(&options.interpolate)?)
            .with_background(background)
            .with_matte(matte)
            .with_threads(options.threads.unwrap_or(0).into())
            .with_rows(options.rows.unwrap_or(0));
        if let Some(viewport) = viewport {
            distort = distort.with_viewport(viewport);
        }
        let colours = [("background", background), ("matte", matte)];
        let notes = colours.map(|(name, colour)| remarks::beyond(name, colour));
        Ok(Self {
            input: input.to_owned(),
            output: output.to_owned(),
            format,
            depth,
            quality: options.quality,
            method,
            args,
            square: false,
            viewport,
            background,
            matte,
            distort,
            show_progress: !options.json,
            notes: notes.into_iter().flatten().collect(),
        })
    }

    pub fn run(&self) -> Result<Made, Failure> {
        let start = Instant::now();
        file::check(&self.output)?;
        let loaded = file::read(&self.input)?;
        let notes = self.notes_on(&loaded);
        let depth = self
            .format
            .depth(self.depth, loaded.depth)
            .map_err(Failure::unusable)?;
        let before = Instant::now();
        let distorted = self.warp(&loaded.picture)?;
        let distort = before.elapsed();
        let Distorted {
            picture,
            x,
            y,
            matte_pixels,
        } = distorted;
        let target = Target {
            format: self.format,
            depth,
            quality: self.quality,
        };
        file::save(&self.output, &file::encode(&picture, target)?)?;
        Ok(Made {
            output: self.output.clone(),
            format: self.format,
            depth,
            width: picture.width(),
            height: picture.height(),
            channels: file::channels_in(&picture, self.format),
            x,
            y,
            matte_pixels,
            distort,
            whole: start.elapsed(),
            notes,
        })
    }

    /// The remarks, with those that the picture gives rise to.
    fn notes_on(&self, loaded: &Loaded) -> Vec<String> {
        let mut notes = self.notes.clone();
        if self.square {
            notes.extend(remarks::outside(&self.args, &loaded.picture));
        }
        notes.extend(remarks::orientation(loaded.orientation));
        notes
    }

    fn warp(&self, picture: &Picture) -> Result<Distorted, Failure> {
        self.room_for_output(picture)?;
        let bar = progress::bar(self.show_progress);
        let made = self
            .distort
            .distort_with(picture, |done, rows| progress::tell(&bar, done, rows));
        bar.finish_and_clear();
        made.map_err(|refusal| Failure::Refused {
            refusal,
            detail: self.detail(refusal, picture),
        })
    }

    /// Tries whether there is memory for the output and its file. Asked of the allocator later on, it would end the
    /// program.
    fn room_for_output(&self, picture: &Picture) -> Result<(), Failure> {
        // A refusal is told by the call itself.
        let Ok(window) = self.distort.size(picture) else {
            return Ok(());
        };
        let mut room = Vec::<f32>::new();
        room.try_reserve_exact(2 * window.band_length(window.height))
            .map_err(|_| {
                let (width, height) = (window.width, window.height);
                Failure::unusable(format!(
                    "there is no memory for an output of {width}x{height}"
                ))
            })
    }

    /// What of this run met the refusal, where the table's words leave it open.
    fn detail(&self, refusal: Refusal, picture: &Picture) -> Option<String> {
        match refusal {
            Refusal::Count | Refusal::Few => Some(format!(
                "{} was given {} numbers",
                self.method,
                self.args.len()
            )),
            Refusal::Order => Some(format!("the order is {:?}", self.args.first()?)),
            Refusal::Number => self.first_bad_number(picture),
            Refusal::Window => Some(match self.viewport {
                Some(viewport) => self.output_was_to_be(viewport),
                None => "the best fit is too large or too far off".to_owned(),
            }),
            // A side of 0 leaves the corners nowhere to go, and the fit is judged before the window.
            Refusal::Degenerate => {
                let empty = self.viewport.filter(|v| v.width == 0 || v.height == 0)?;
                Some(self.output_was_to_be(empty))
            }
            _ => None,
        }
    }

    /// The output as it was asked for: by its size alone in `square`.
    fn output_was_to_be(&self, viewport: Viewport) -> String {
        let shown = match self.square {
            true => format!("{}x{}", viewport.width, viewport.height),
            false => text::shown(viewport),
        };
        format!("the output was to be {shown}")
    }

    /// An argument by what was given for it: in `square` each four are a corner and its place in the output.
    fn bad_argument(&self, k: usize) -> String {
        match self.viewport.filter(|_| self.square) {
            Some(_) if k % 4 < 2 => format!("corner {} has {:?}", k / 4 + 1, self.args[k]),
            Some(viewport) => self.output_was_to_be(viewport),
            None => format!("argument {} is {:?}", k + 1, self.args[k]),
        }
    }

    /// In the table's order: arguments, samples, background, matte.
    fn first_bad_number(&self, picture: &Picture) -> Option<String> {
        let bad = |x: f64, largest: f64| x.is_nan() || x.abs() > largest;
        let bad_sample = |x: &f32| bad(f64::from(*x), 65_536.0);
        if let Some(k) = self.args.iter().position(|x| bad(*x, 1_048_576.0)) {
            return Some(self.bad_argument(k));
        }
        if let Some(k) = picture.samples().iter().position(bad_sample) {
            let (channels, width) = (picture.channels() as usize, picture.width() as usize);
            let pixel = k / channels;
            let (x, y, sample) = (pixel % width, pixel / width, picture.samples()[k]);
            return Some(format!(
                "the picture's sample at column {x}, row {y}, channel {} is {sample:?}",
                k % channels
            ));
        }
        let colours = [("background", self.background), ("matte", self.matte)];
        let (name, _) = colours
            .into_iter()
            .find(|(_, colour)| colour.iter().any(bad_sample))?;
        Some(format!("the {name} colour has such a number"))
    }
}

/// A name as the proved readers know it; where they don't, as ImageMagick takes it, with marks between its words.
fn named<T: FromStr<Err = NameError>>(text: &str) -> Result<T, NameError> {
    text.parse().or_else(|unknown| {
        text.replace(['-', '_', ' '], "")
            .parse()
            .map_err(|_| unknown)
    })
}

/// The call leaves out what comes after the barrels' sixth number. Somebody who gave more meant another mapping.
fn barrel_numbers(method: Method, count: usize) -> Result<(), String> {
    let barrel = matches!(method, Method::Barrel | Method::BarrelInverse);
    if barrel && count >= 3 && ![3, 4, 6].contains(&count) {
        return Err(format!(
            "{method} takes {}, which are 3, 4 or 6 numbers: here are {count}",
            method.arguments()
        ));
    }
    Ok(())
}

/// A reader's words with the option that they are about.
fn option<T>(name: &str, read: Result<T, String>) -> Result<T, Failure> {
    read.map_err(|why| Failure::unusable(format!("{name}: {why}")))
}
