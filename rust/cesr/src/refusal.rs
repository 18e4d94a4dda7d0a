//! The numbers a vendor sees, their words, and the place that comes with each.

use core::fmt;

/// The enum of the numbers, made of one list with what C has of them.
macro_rules! numbers {
    ($($(#[$doc:meta])* $name:ident = $value:literal, $words:literal;)*) => {
        /// Why something was refused, as a number. These are all there are.
        ///
        /// ```
        /// use cesr::Number;
        /// assert_eq!(Number::Prepad.get(), 10);
        /// assert_eq!(Number::Prepad.words(), "tag prepad not `_`");
        /// assert_eq!(Number::new(10), Some(Number::Prepad));
        /// assert_eq!(Number::new(0), None);
        /// ```
        #[derive(Clone, Copy, Debug, PartialEq, Eq, PartialOrd, Ord, Hash)]
        #[repr(u8)]
        pub enum Number {
            $($(#[$doc])* $name = $value,)*
        }

        impl Number {
            const ALL: &'static [Number] = &[$(Number::$name),*];

            /// The number with this value; none for a value that is no number.
            pub const fn new(value: u8) -> Option<Number> {
                match value {
                    $($value => Some(Number::$name),)*
                    _ => None,
                }
            }

            /// What the number means, in the words of the papers.
            pub const fn words(self) -> &'static str {
                match self {
                    $(Number::$name => $words,)*
                }
            }
        }
    };
}

include!("numbers.rs");

impl Number {
    /// All numbers, in order.
    pub fn all() -> impl Iterator<Item = Number> {
        Number::ALL.iter().copied()
    }

    /// As the library answered it. It answers no other number: if it did, what
    /// it was asked for would be malformed here, and no pass.
    pub(crate) const fn answered(value: u8) -> Number {
        match Number::new(value) {
            Some(number) => number,
            None => Number::Malformed,
        }
    }

    /// Is it a character's, so that its place is that character: 5 or 19?
    pub const fn is_of_a_character(self) -> bool {
        matches!(self, Number::Character | Number::OrdinaryBase64)
    }

    /// The number's value.
    pub const fn get(self) -> u8 {
        self as u8
    }
}

impl fmt::Display for Number {
    fn fmt(&self, f: &mut fmt::Formatter<'_>) -> fmt::Result {
        self.get().fmt(f)
    }
}

/// A refusal: its number, and the place in characters or bytes.
///
/// The place is the character for 5 and 19, else the item's start; 0 for 1, 2,
/// 3, 12, 13, 20 and for a writer's 6, 15, 16 and 18, and for a writer's 5 and 19
/// the index among the tag characters or in the text. What a group's writer
/// refuses in the body has its place in it, counted from the body's start.
#[derive(Clone, Copy, Debug, PartialEq, Eq, Hash)]
pub struct Refusal {
    /// Why.
    pub number: Number,
    /// Where.
    pub place: usize,
}

impl From<proved::Refusal> for Refusal {
    fn from(refusal: proved::Refusal) -> Refusal {
        Refusal {
            number: Number::answered(refusal.number),
            place: refusal.place,
        }
    }
}

impl fmt::Display for Refusal {
    fn fmt(&self, f: &mut fmt::Formatter<'_>) -> fmt::Result {
        let Refusal { number, place } = self;
        write!(f, "refused {number} at {place}: {}", number.words())
    }
}

impl core::error::Error for Refusal {}
