//! Resolved configurations as JSON.

mod told;
