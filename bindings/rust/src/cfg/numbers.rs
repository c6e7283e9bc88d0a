//! Values that are numbers of bits, and are kept as texts.
use super::compare::compares_with_texts;
use super::Cfg;
use crate::error::Error;
use std::fmt;
use std::str::FromStr;

/// A value of `target_has_atomic`: a width of which there are atomic operations, in bits, or `ptr`.
#[derive(Clone)]
pub struct TargetHasAtomic(Box<str>);

/// The value of `target_pointer_width`: how wide a pointer is, in bits.
#[derive(Clone)]
pub struct TargetPointerWidth(Box<str>);

// Equality with a type of numbers, in both directions, also of a reference.
macro_rules! equals_number {
    ($name:ident $($number:ty)*) => {$(
        impl PartialEq<$number> for $name {
            fn eq(&self, other: &$number) -> bool {
                self.as_str().parse() == Ok(*other)
            }
        }

        impl PartialEq<$number> for &$name {
            fn eq(&self, other: &$number) -> bool {
                **self == *other
            }
        }

        impl PartialEq<$name> for $number {
            fn eq(&self, other: &$name) -> bool {
                other == self
            }
        }

        impl PartialEq<&$name> for $number {
            fn eq(&self, other: &&$name) -> bool {
                **other == *self
            }
        }
    )*};
}

// A type of numbers.
macro_rules! numbers {
    ($($name:ident)*) => {$(
        impl $name {
            /// The value, as rustc prints it.
            #[must_use]
            pub const fn as_str(&self) -> &str {
                &self.0
            }
        }

        impl FromStr for $name {
            type Err = Error;

            fn from_str(text: &str) -> Result<Self, Error> {
                Ok($name(text.into()))
            }
        }

        compares_with_texts!($name);
        equals_number!($name u16 u32 u64 i32);
    )*};
}

numbers! { TargetHasAtomic TargetPointerWidth }

impl Cfg for TargetHasAtomic {
    type Output = Vec<Self>;
    const KEY: &'static str = "target_has_atomic";
    type Error = Error;
    const MAX: usize = usize::MAX;

    fn from_values<I: ExactSizeIterator<Item = V>, V: AsRef<str>>(values: I) -> Result<Vec<Self>, Error> {
        values.map(|value| value.as_ref().parse()).collect()
    }

    fn default_output() -> Option<Vec<Self>> {
        Some(Vec::new())
    }
}

impl Cfg for TargetPointerWidth {
    type Output = Self;
    const KEY: &'static str = "target_pointer_width";
    type Error = Error;
    const MAX: usize = 1;

    fn from_values<I: ExactSizeIterator<Item = V>, V: AsRef<str>>(mut values: I) -> Result<Self, Error> {
        values.next().as_ref().map_or("", AsRef::as_ref).parse()
    }

    fn default_output() -> Option<Self> {
        None
    }
}
