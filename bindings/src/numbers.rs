//! How an enum carries the documents' numbers: each case is one of them, and both ways are written once.
use std::fmt;

/// A number that none of an enum's cases has.
#[derive(Clone, Copy, Debug, PartialEq, Eq, Hash)]
pub struct UnknownNumber {
    /// What the enum's cases are.
    pub of: &'static str,
    pub number: u8,
}

impl fmt::Display for UnknownNumber {
    fn fmt(&self, out: &mut fmt::Formatter) -> fmt::Result {
        write!(out, "{} is the number of no {}", self.number, self.of)
    }
}

impl std::error::Error for UnknownNumber {}

/// An enum whose cases are numbers, with `number` one way and `TryFrom<u8>` the other.
macro_rules! numbers {
    ($(#[$about:meta])* $name:ident { $($(#[$case_about:meta])* $case:ident = $number:literal,)+ }) => {
        $(#[$about])*
        #[derive(Clone, Copy, Debug, PartialEq, Eq, Hash, PartialOrd, Ord)]
        #[repr(u8)]
        pub enum $name {
            $($(#[$case_about])* $case = $number,)+
        }

        impl $name {
            /// Every case, ascending.
            pub const ALL: &'static [$name] = &[$($name::$case,)+];

            /// Its number in the documents.
            pub fn number(self) -> u8 {
                self as u8
            }
        }

        impl TryFrom<u8> for $name {
            type Error = $crate::UnknownNumber;

            fn try_from(number: u8) -> Result<$name, $crate::UnknownNumber> {
                match number {
                    $($number => Ok($name::$case),)+
                    _ => Err($crate::UnknownNumber { of: stringify!($name), number }),
                }
            }
        }
    };
}

/// The same, each case with its words, which docs/NUMBERS.md has too.
macro_rules! worded {
    ($(#[$about:meta])* $name:ident { $($case:ident = $number:literal => $words:literal,)+ }) => {
        $crate::numbers::numbers! {
            $(#[$about])*
            $name { $(#[doc = $words] $case = $number,)+ }
        }

        impl $name {
            /// In the words of docs/NUMBERS.md.
            pub fn words(self) -> &'static str {
                match self {
                    $($name::$case => $words,)+
                }
            }
        }
    };
}

/// The same, each case a reason why a call did nothing: an error, which says its number and its words.
macro_rules! refusals {
    ($(#[$about:meta])* $name:ident { $($cases:tt)+ }) => {
        $crate::numbers::worded! { $(#[$about])* $name { $($cases)+ } }

        impl std::fmt::Display for $name {
            fn fmt(&self, out: &mut std::fmt::Formatter) -> std::fmt::Result {
                write!(out, "refused {}: {}", self.number(), self.words())
            }
        }

        impl std::error::Error for $name {}
    };
}

pub(crate) use {numbers, refusals, worded};
