//! The refusal table: numbers, words, and what to mend.

use std::error::Error;
use std::fmt;

/// Why a call was refused: the first line of the table that applies. A refused call changes nothing.
///
/// ```
/// use dihyravo::Refusal;
///
/// let refusal = Refusal::Degenerate;
/// assert_eq!((refusal.number(), refusal.word()), (8, "degenerate"));
/// assert!(refusal.to_string().starts_with("refusal 8 (degenerate): no mapping fits"));
/// assert_eq!(Refusal::from_number(8), Some(refusal));
/// ```
#[derive(Clone, Copy, Debug, PartialEq, Eq, Hash, PartialOrd, Ord)]
#[non_exhaustive]
pub enum Refusal {
    /// 1: width or height is 0 or above 4,096, or channels is not 1, 3 or 4.
    Size = 1,
    /// 2: the picture's length is not width × height × channels.
    Stock,
    /// 3: the method, policy or interpolation is unknown or absent.
    Code,
    /// 4: the number of arguments is not one that the method takes.
    Count,
    /// 5: an argument, a sample or a colour is not finite or too large.
    Number,
    /// 6: the order of `Polynomial` is not exactly 1, 1.5, 2, 3, 4 or 5.
    Order,
    /// 7: there are too few pairs for the method.
    Few,
    /// 8: no mapping fits.
    Degenerate,
    /// 9: the output's window is empty, too large or too far off.
    Window,
    /// 10: rows are asked for that the output does not have.
    Rows,
    /// 11: the band's length is not rows × output width × output channels.
    Tray,
}

impl Refusal {
    /// The whole table, in its order.
    pub const ALL: [Self; 11] = [
        Self::Size,
        Self::Stock,
        Self::Code,
        Self::Count,
        Self::Number,
        Self::Order,
        Self::Few,
        Self::Degenerate,
        Self::Window,
        Self::Rows,
        Self::Tray,
    ];

    /// The refusal of a number, 1 to 11.
    pub fn from_number(number: u64) -> Option<Self> {
        Self::ALL.into_iter().find(|r| r.number() == number)
    }

    /// Its number, 1 to 11.
    pub fn number(self) -> u64 {
        self as u64
    }

    /// Its word.
    pub fn word(self) -> &'static str {
        match self {
            Self::Size => "size",
            Self::Stock => "stock",
            Self::Code => "code",
            Self::Count => "count",
            Self::Number => "number",
            Self::Order => "order",
            Self::Few => "few",
            Self::Degenerate => "degenerate",
            Self::Window => "window",
            Self::Rows => "rows",
            Self::Tray => "tray",
        }
    }

    /// What is wrong and what to mend, in one sentence without a full stop.
    pub fn mend(self) -> &'static str {
        match self {
            Self::Size => {
                "width and height must be 1 to 4,096 and channels 1, 3 or 4; scale or cut the picture"
            }
            Self::Stock => {
                "the picture's length is not width times height times channels; hand over exactly that many samples"
            }
            Self::Code => {
                "the method, virtual pixel policy or interpolation is unknown or absent; take a name of the list"
            }
            Self::Count => {
                "the number of arguments does not fit the method; AffineProjection takes 6, PerspectiveProjection 8, \
                 Barrel and BarrelInverse 3 to 257, the others u,v,x,y for each of at most 64 pairs, \
                 Polynomial its order before them"
            }
            Self::Number => {
                "a number is not finite or too large; keep arguments within 1,048,576 of 0, samples and colours within \
                 65,536"
            }
            Self::Order => {
                "the order of Polynomial is not 1, 1.5, 2, 3, 4 or 5; give exactly one of them as the first argument, \
                 before the pairs"
            }
            Self::Few => {
                "too few pairs; Perspective, BilinearForward and BilinearReverse need 4, Polynomial of order \
                 1, 1.5, 2, 3, 4, 5 needs 3, 4, 6, 10, 15, 21"
            }
            Self::Degenerate => {
                "no mapping fits; pick points that are apart and not on one line, give coefficients that can be \
                 inverted"
            }
            Self::Window => {
                "the output's sides must be 1 to 4,096 and its offset within 1,048,576 of 0; give another size or \
                 viewport, or leave best fit off"
            }
            Self::Rows => {
                "first row plus row count is above the output's height; ask for the size first and stay below it"
            }
            Self::Tray => {
                "the band's length is not rows times output width times output channels; ask for the size first and \
                 lend exactly that much"
            }
        }
    }
}

impl fmt::Display for Refusal {
    fn fmt(&self, f: &mut fmt::Formatter) -> fmt::Result {
        write!(
            f,
            "refusal {} ({}): {}",
            self.number(),
            self.word(),
            self.mend()
        )
    }
}

impl Error for Refusal {}
