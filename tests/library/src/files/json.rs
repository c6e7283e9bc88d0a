//! Tables and values as JSON.

mod told;
