//! The kinds of tensor data, and their names.

use core::fmt;

/// The kind of a tensor's data, by its number in the file.
///
/// Where a number names a kind, there is a constant of that name. It displays as the name, or as
/// `kind 40` where there is none.
///
/// ```
/// use strutpebble::Kind;
///
/// assert_eq!((Kind::Q4_0.number(), Kind::Q4_0.name()), (2, Some("Q4_0")));
/// assert_eq!(Kind::from(30), Kind::BF16);
/// assert_eq!(Kind::from(30).to_string(), "BF16");
/// assert_eq!((Kind::from(40).name(), Kind::from(40).to_string()), (None, "kind 40".into()));
/// ```
#[derive(Clone, Copy, Debug, PartialEq, Eq, PartialOrd, Ord, Hash)]
pub struct Kind(u32);

/// A constant for each kind, and the names of all.
macro_rules! kinds {
    ($($name:ident = $number:literal),* $(,)?) => {
        impl Kind {
            $(
                #[doc = concat!("Kind ", $number, ".")]
                pub const $name: Kind = Kind($number);
            )*

            /// The name that ggml gives the kind. 4, 5 and the numbers from 40 on name no kind.
            pub const fn name(self) -> Option<&'static str> {
                match self.0 {
                    $($number => Some(stringify!($name)),)*
                    _ => None,
                }
            }
        }
    };
}

// Those from 31 to 33 and from 36 to 38 are read, with a size of 0, and never written.
kinds! {
    F32 = 0, F16 = 1, Q4_0 = 2, Q4_1 = 3,
    Q5_0 = 6, Q5_1 = 7, Q8_0 = 8, Q8_1 = 9,
    Q2_K = 10, Q3_K = 11, Q4_K = 12, Q5_K = 13, Q6_K = 14, Q8_K = 15,
    IQ2_XXS = 16, IQ2_XS = 17, IQ3_XXS = 18, IQ1_S = 19,
    IQ4_NL = 20, IQ3_S = 21, IQ2_S = 22, IQ4_XS = 23,
    I8 = 24, I16 = 25, I32 = 26, I64 = 27, F64 = 28, IQ1_M = 29, BF16 = 30,
    Q4_0_4_4 = 31, Q4_0_4_8 = 32, Q4_0_8_8 = 33,
    TQ1_0 = 34, TQ2_0 = 35,
    IQ4_NL_4_4 = 36, IQ4_NL_4_8 = 37, IQ4_NL_8_8 = 38,
    MXFP4 = 39,
}

impl Kind {
    /// The kind's number in the file.
    pub const fn number(self) -> u32 {
        self.0
    }
}

impl From<u32> for Kind {
    fn from(number: u32) -> Kind {
        Kind(number)
    }
}

impl From<Kind> for u32 {
    fn from(kind: Kind) -> u32 {
        kind.0
    }
}

impl fmt::Display for Kind {
    fn fmt(&self, f: &mut fmt::Formatter<'_>) -> fmt::Result {
        match self.name() {
            Some(name) => f.write_str(name),
            None => write!(f, "kind {}", self.0),
        }
    }
}
