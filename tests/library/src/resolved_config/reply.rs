//! Replies to requests: that an answer is reached.

mod load;
mod replies;
mod requests;
mod several;
