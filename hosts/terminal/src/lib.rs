//! What the hosts for the terminal share: messages, conditions and rejections in words, what is not sound in an image, what they tell of
//! numbers and streams, a journal, append by append, the week of one, and JSON.

#[cfg(feature = "entries")]
pub mod conditions;
#[cfg(feature = "entries")]
pub mod counted;
#[cfg(feature = "entries")]
pub mod facts;
#[cfg(feature = "entries")]
pub mod journal;
#[cfg(feature = "entries")]
pub mod json;
#[cfg(feature = "entries")]
pub mod message;
pub mod sound;
#[cfg(feature = "entries")]
pub mod told;
#[cfg(feature = "entries")]
pub mod why;
