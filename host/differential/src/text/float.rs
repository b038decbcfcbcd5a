//! Floats as short text that gives their bits back.

/// A float that writes itself shortly and reads itself back.
pub trait Float: Copy + PartialEq {
    fn write(self) -> String;
    fn read(text: &str) -> Option<Self>;
    fn same(self, other: Self) -> bool;
}

macro_rules! float {
    ($float:ty, $bits:ty, $digits:literal) => {
        impl Float for $float {
            fn write(self) -> String {
                if !self.is_finite() {
                    return format!(concat!("#{:0", $digits, "x}"), self.to_bits());
                }
                let text = format!("{self:?}");
                text.strip_suffix(".0").map(str::to_string).unwrap_or(text)
            }

            fn read(text: &str) -> Option<Self> {
                match text.strip_prefix('#') {
                    Some(bits) => <$bits>::from_str_radix(bits, 16).ok().map(Self::from_bits),
                    None => text.parse().ok(),
                }
            }

            fn same(self, other: Self) -> bool {
                self.to_bits() == other.to_bits()
            }
        }
    };
}

float!(f32, u32, 8);
float!(f64, u64, 16);
