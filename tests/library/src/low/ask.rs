//! Requests and replies in bytes.

mod made;
mod needs;
mod requests;
