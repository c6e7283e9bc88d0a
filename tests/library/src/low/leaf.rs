//! Single values, as files have them.

mod decoded;
mod merged;
mod words;
