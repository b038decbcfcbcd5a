//! The builder: the original's, over the proved call.

use crate::raw::{self, Answer, Job};
use crate::{Interpolate, Method, Picture, Refusal, VirtualPixel, bands, ffi};
use std::borrow::Cow;
use std::ops::Range;
use std::thread;

/// An output window: its size, and where its upper left corner lies in the plane that the method maps the picture to.
#[derive(Clone, Copy, Debug, PartialEq, Eq, Hash)]
pub struct Viewport {
    /// The width in pixels.
    pub width: u64,
    /// The height in pixels.
    pub height: u64,
    /// The left edge.
    pub x: i64,
    /// The upper edge.
    pub y: i64,
}

/// What an output will be: its size, its offset and its channels.
#[derive(Clone, Copy, Debug, PartialEq, Eq, Hash)]
pub struct Window {
    /// The width in pixels.
    pub width: u64,
    /// The height in pixels.
    pub height: u64,
    /// The left edge.
    pub x: i64,
    /// The upper edge.
    pub y: i64,
    /// The channels.
    pub channels: u64,
}

impl Window {
    /// How many samples a band of so many rows has.
    pub fn band_length(&self, rows: u64) -> usize {
        let row = self.width * self.channels;
        usize::try_from(rows.saturating_mul(row)).unwrap_or(usize::MAX)
    }
}

/// A distorted picture and where it lies.
#[derive(Clone, Debug, PartialEq)]
pub struct Distorted {
    /// The picture.
    pub picture: Picture,
    /// Its left edge.
    pub x: i64,
    /// Its upper edge.
    pub y: i64,
    /// How many of its pixels have no source point that can be used, and so show the matte colour.
    pub matte_pixels: u64,
}

/// A distortion: a method, its arguments, and how to go about it.
///
/// Four picked corners of a card, squared to 200 by 100 pixels; of each, u, v on the photograph and x, y where it
/// belongs:
///
/// ```
/// use dihyravo::{Distort, Method, Picture, Refusal, Viewport};
///
/// let photograph = Picture::filled(320, 240, &[0.5, 0.25, 0.125])?;
/// let corners = [31., 18., 0., 0., 290., 40., 200., 0., 301., 222., 200., 100., 22., 197., 0., 100.];
/// let viewport = Viewport { width: 200, height: 100, x: 0, y: 0 };
/// let card = Distort::new(Method::Perspective, corners).with_viewport(viewport).distort(&photograph)?;
/// assert_eq!((card.picture.width(), card.picture.height()), (200, 100));
/// assert_eq!(card.picture.pixel(100, 50), Some(&[0.5, 0.25, 0.125][..]));
/// assert_eq!(card.matte_pixels, 0);
/// # Ok::<(), Refusal>(())
/// ```
#[derive(Clone, Debug, PartialEq)]
pub struct Distort {
    method: Method,
    args: Vec<f64>,
    bestfit: bool,
    viewport: Option<Viewport>,
    virtual_pixel: VirtualPixel,
    interpolate: Interpolate,
    background: [f32; 4],
    matte: [f32; 4],
    threads: usize,
    rows: u64,
}

impl Distort {
    /// The background where none is given: white.
    pub const BACKGROUND: [f32; 4] = [1.0; 4];

    /// The matte where none is given: the grey 189/255.
    pub const MATTE: [f32; 4] = [189.0 / 255.0, 189.0 / 255.0, 189.0 / 255.0, 1.0];

    /// A method and its arguments, with the original's defaults: the picture's own window, [`VirtualPixel::Edge`],
    /// [`Distort::BACKGROUND`], [`Distort::MATTE`]. The original's elliptical averaging is absent, so the interpolation
    /// is its point sampler's default, [`Interpolate::Bilinear`]. As many threads as the machine has cores.
    pub fn new(method: Method, args: impl Into<Vec<f64>>) -> Self {
        Self {
            method,
            args: args.into(),
            bestfit: false,
            viewport: None,
            virtual_pixel: VirtualPixel::default(),
            interpolate: Interpolate::default(),
            background: Self::BACKGROUND,
            matte: Self::MATTE,
            threads: 0,
            rows: 0,
        }
    }

    /// Whether the output is sized to the distorted picture, for the affine and perspective methods. A viewport wins.
    pub fn with_bestfit(mut self, bestfit: bool) -> Self {
        self.bestfit = bestfit;
        self
    }

    /// The output's window. One without pixels is refused, where the original takes 1 for 0.
    pub fn with_viewport(mut self, viewport: Viewport) -> Self {
        self.viewport = Some(viewport);
        self
    }

    /// What is read outside the picture.
    pub fn with_virtual_pixel(mut self, virtual_pixel: VirtualPixel) -> Self {
        self.virtual_pixel = virtual_pixel;
        self
    }

    /// How the picture is read between its pixels.
    pub fn with_interpolate(mut self, interpolate: Interpolate) -> Self {
        self.interpolate = interpolate;
        self
    }

    /// The background: red, green, blue, alpha. If its alpha is below 1, the output has four channels.
    pub fn with_background(mut self, rgba: [f32; 4]) -> Self {
        self.background = rgba;
        self
    }

    /// The colour of pixels without a source point that can be used, such as those beyond a horizon.
    pub fn with_matte(mut self, rgba: [f32; 4]) -> Self {
        self.matte = rgba;
        self
    }

    /// How many threads [`Distort::distort`] works on; 0 for as many as the machine has cores. The picture is the same,
    /// bit for bit, whatever the number.
    pub fn with_threads(mut self, threads: usize) -> Self {
        self.threads = threads;
        self
    }

    /// How many rows a band of [`Distort::distort`] has; 0 for two bands a thread, or one band where there is one
    /// thread. The picture is the same, bit for bit, whatever the number. Each band costs a look at every sample of the
    /// picture, so small bands are slow.
    pub fn with_rows(mut self, rows: u64) -> Self {
        self.rows = rows;
        self
    }

    /// What the output will be, or why the call is refused.
    ///
    /// ```
    /// use dihyravo::{Distort, Method, Picture, Refusal};
    ///
    /// let picture = Picture::filled(4, 3, &[1.0])?;
    /// let same = [1.0, 0.0, 0.0, 1.0, 0.0, 0.0];
    /// let window = Distort::new(Method::AffineProjection, same).with_bestfit(true).size(&picture)?;
    /// assert_eq!((window.width, window.height, window.x, window.y), (6, 5, -1, -1));
    /// # Ok::<(), Refusal>(())
    /// ```
    pub fn size(&self, picture: &Picture) -> Result<Window, Refusal> {
        Prepared::new(self, picture).size()
    }

    /// The rows of the output that `rows` names, into `band`, which has to be as long as they are:
    /// [`Window::band_length`]. A refused call leaves the band as it was. For machines that have no room for the whole
    /// output: rows in bands are, bit for bit, those of the whole picture.
    ///
    /// ```
    /// use dihyravo::{Distort, Method, Picture, Refusal};
    ///
    /// let picture = Picture::filled(4, 8, &[0.5])?;
    /// let distort = Distort::new(Method::Affine, [0.0, 0.0, 0.5, 0.5]);
    /// let window = distort.size(&picture)?;
    /// let mut band = vec![0.0; window.band_length(2)];
    /// for first in (0..window.height).step_by(2) {
    ///     let answer = distort.distort_rows(&picture, first..first + 2, &mut band)?;
    ///     assert_eq!(answer.matte_pixels, 0);
    /// }
    /// assert_eq!(distort.distort_rows(&picture, 7..9, &mut band), Err(Refusal::Rows));
    /// # Ok::<(), Refusal>(())
    /// ```
    pub fn distort_rows(
        &self,
        picture: &Picture,
        rows: Range<u64>,
        band: &mut [f32],
    ) -> Result<Answer, Refusal> {
        Prepared::new(self, picture).distort_rows(rows, band)
    }

    /// The whole distorted picture, worked in bands on several threads.
    pub fn distort(&self, picture: &Picture) -> Result<Distorted, Refusal> {
        self.distort_with(picture, |_, _| ())
    }

    /// As [`Distort::distort`]; after each band `progress` is told how many rows are done, and of how many. The calls
    /// come from any of the threads, one at a time, and the number of rows that are done only grows.
    ///
    /// ```
    /// use dihyravo::{Distort, Method, Picture, Refusal};
    ///
    /// let picture = Picture::filled(16, 16, &[0.5])?;
    /// let mut told = Vec::new();
    /// let distort = Distort::new(Method::Barrel, [0.0, 0.0, 0.1]).with_rows(4);
    /// distort.distort_with(&picture, |done, rows| told.push((done, rows)))?;
    /// assert_eq!(told, [(4, 16), (8, 16), (12, 16), (16, 16)]);
    /// # Ok::<(), Refusal>(())
    /// ```
    pub fn distort_with(
        &self,
        picture: &Picture,
        progress: impl FnMut(u64, u64) + Send,
    ) -> Result<Distorted, Refusal> {
        let prepared = Prepared::new(self, picture);
        let window = prepared.size()?;
        let plan = self.plan(window);
        let mut samples = vec![0.0; window.band_length(window.height)];
        let call = |rows, band: &mut [f32]| Ok(prepared.distort_rows(rows, band)?.matte_pixels);
        let matte_pixels = bands::work(plan, &mut samples, call, progress)?;
        let picture = Picture::new(window.width, window.height, window.channels, samples)?;
        let Window { x, y, .. } = window;
        Ok(Distorted {
            picture,
            x,
            y,
            matte_pixels,
        })
    }

    fn plan(&self, window: Window) -> bands::Plan {
        let threads = match self.threads {
            0 => thread::available_parallelism().map_or(1, usize::from),
            threads => threads,
        };
        let bands = if threads == 1 {
            1
        } else {
            (threads as u64).saturating_mul(2)
        };
        let rows = match self.rows {
            0 => window.height.div_ceil(bands),
            rows => rows.min(window.height),
        };
        bands::Plan {
            threads,
            rows,
            height: window.height,
            row: window.band_length(1),
        }
    }
}

/// A distortion and a picture as the call takes them, so that nothing is copied for each band.
struct Prepared<'a> {
    distort: &'a Distort,
    picture: &'a Picture,
    samples: Cow<'a, [u8]>,
    arguments: Vec<u8>,
}

impl<'a> Prepared<'a> {
    fn new(distort: &'a Distort, picture: &'a Picture) -> Self {
        Self {
            distort,
            picture,
            samples: picture.to_le_bytes(),
            arguments: distort.args.iter().flat_map(|x| x.to_le_bytes()).collect(),
        }
    }

    fn job(&self, rows: Range<u64>) -> Job<'_> {
        let distort = self.distort;
        let view = distort.viewport;
        let given = view.unwrap_or(Viewport {
            width: 0,
            height: 0,
            x: 0,
            y: 0,
        });
        Job {
            picture: &self.samples,
            width: self.picture.width(),
            height: self.picture.height(),
            channels: self.picture.channels(),
            method: distort.method.code(),
            arguments: &self.arguments,
            policy: distort.virtual_pixel.code(),
            interpolation: distort.interpolate.code(),
            background: colour(distort.background),
            matte: colour(distort.matte),
            bestfit: distort.bestfit.into(),
            viewport: view.is_some().into(),
            view_width: given.width,
            view_height: given.height,
            view_x: given.x,
            view_y: given.y,
            first_row: rows.start,
            rows: rows.end.saturating_sub(rows.start),
        }
    }

    fn size(&self) -> Result<Window, Refusal> {
        let Answer {
            width,
            height,
            x,
            y,
            channels,
            ..
        } = self.distort_rows(0..0, &mut [])?;
        Ok(Window {
            width,
            height,
            x,
            y,
            channels,
        })
    }

    fn distort_rows(&self, rows: Range<u64>, band: &mut [f32]) -> Result<Answer, Refusal> {
        let mut answer = [0; 48];
        let number = raw::distort_into(&self.job(rows), ffi::bytes_mut(band), &mut answer);
        match Refusal::from_number(number) {
            Some(refusal) => Err(refusal),
            None => {
                in_own_order(band);
                Ok(Answer::read(&answer))
            }
        }
    }
}

/// The call writes little-endian floats; on other machines their bytes are turned round.
fn in_own_order(band: &mut [f32]) {
    if cfg!(target_endian = "big") {
        band.iter_mut()
            .for_each(|x| *x = f32::from_bits(x.to_bits().swap_bytes()));
    }
}

/// A colour as the call takes it.
fn colour(components: [f32; 4]) -> [u8; 16] {
    let mut bytes = [0; 16];
    for (part, x) in bytes.chunks_exact_mut(4).zip(components) {
        part.copy_from_slice(&x.to_le_bytes());
    }
    bytes
}
