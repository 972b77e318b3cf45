//! What a person reads: a request and a reply in words, a console's front page, and two runs of a session side by side.

mod compare;
mod differences;
mod front;
mod reply;
mod totals;
mod transcript;
mod words;

pub use compare::{compare, Comparison};
pub use differences::{bytes_differ, differences, values_differ, Difference};
pub use front::{front, FRONT};
pub use reply::reply;
pub use totals::{Totals, COUNTED};
pub use transcript::{Answer, Transcript};
pub use words::request_words;
