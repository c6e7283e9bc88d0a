//! What all values of cfg names have in common: they print as their texts, and compare with texts.

// Equality with a type of texts, in both directions.
macro_rules! equals_text {
    ($name:ident $($text:ty)*) => {$(
        impl PartialEq<$text> for $name {
            fn eq(&self, other: &$text) -> bool {
                let text: &str = other.as_ref();
                self.as_str() == text
            }
        }

        impl PartialEq<$name> for $text {
            fn eq(&self, other: &$name) -> bool {
                other == self
            }
        }
    )*};
}

// The common impls of a type that has `as_str`.
macro_rules! compares_with_texts {
    ($name:ident) => {
        impl PartialEq for $name {
            fn eq(&self, other: &Self) -> bool {
                self.as_str() == other.as_str()
            }
        }

        impl Eq for $name {}

        impl fmt::Display for $name {
            fn fmt(&self, f: &mut fmt::Formatter<'_>) -> fmt::Result {
                f.write_str(self.as_str())
            }
        }

        impl fmt::Debug for $name {
            fn fmt(&self, f: &mut fmt::Formatter<'_>) -> fmt::Result {
                fmt::Debug::fmt(self.as_str(), f)
            }
        }

        $crate::cfg::compare::equals_text!($name str &str String &String Box<str> &Box<str>);
    };
}

pub(super) use {compares_with_texts, equals_text};
