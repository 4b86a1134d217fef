//! A garage's station, proved: its calls and questions for a planner in Rust.
//!
//! A [`Station`] stands between an automated garage's planner and its motors. It keeps the [`Record`] of the garage, judges sets of
//! [`Instruction`]s, takes the motors' results and the drivers' comings and goings, and changes its record only when a motor reports
//! success or a driver begins or ends a drive. A [`Desk`] is a station that knows cars by their cards. [`plan::judge`] tries a whole plan
//! before the day, [`Totals`] count what a station was sent, and [`message`] has the bytes for the program `bin/station`. What is called
//! here is the proved code itself, linked statically; what the numbers of a [`Refusal`] mean, and what a planner does about them, is said
//! in docs/PROTOCOL.md.
//!
//! # A planner takes it by path
//!
//! ```toml
//! [dependencies]
//! station = { path = "../vargsnida/hosts/rust" }
//! ```
//!
//! The first build proves and builds the project, which takes some minutes and needs its toolchain (`rt`). Where the project is installed,
//! take `PREFIX/share/station/rust` instead: it links the archive in `PREFIX/lib`, and no toolchain is needed. With the environment variable
//! STATION_LIB_DIR set to a folder with libstation.a, that archive is linked, wherever the crate is. Without the feature `entries`, which is
//! on by default, nothing is linked: there are the types, the table of numbers and the words alone.
//!
//! # A refusal, in words
//!
//! ```
//! use station::{Event, Instruction, Number, Station};
//! let mut station = Station::new();
//! station.event(Event::BeginIn)?; // a driver is in the lift
//! let down: Instruction = "lift basement".parse().unwrap();
//! let refusal = station.request(&[down]).unwrap_err();
//! assert_eq!(refusal.number, Number::OutOfTurn);
//! assert_eq!(format!("{down}: {refusal}"), "lift basement: 31 (out of turn)");
//! # Ok::<(), station::Refusal>(())
//! ```
//!
//! # A car comes down, and a belt is stuck
//!
//! ```
//! use station::{Event, Number, Outcome, Parts, Station};
//! let mut station = Station::new();
//! station.event(Event::BeginIn)?;
//! station.event(Event::EndedDone)?;
//! let set = station.request(&["lift basement".parse().unwrap()])?;
//! station.result(set, 0, Outcome::Done)?;
//! let belts = ["belts row 1 left lift, lower, full".parse().unwrap()];
//! let set = station.request(&belts)?;
//! station.result(set, 0, Outcome::Stuck)?;
//! assert_eq!(station.request(&belts).unwrap_err().number, Number::SetApart);
//! assert!(station.apart().lift());
//! station.image(station.record())?; // somebody has looked, and nothing had moved
//! assert_eq!(station.apart(), Parts::NONE);
//! # Ok::<(), station::Refusal>(())
//! ```

#![cfg_attr(not(feature = "entries"), allow(dead_code))] // what only the entries' calls use

mod answers;
mod fields;
mod instruction;
mod numbers;
mod places;
pub mod words;

#[cfg(feature = "entries")]
mod building;
#[cfg(feature = "entries")]
mod desk;
#[cfg(feature = "entries")]
mod faults;
#[cfg(feature = "entries")]
pub mod lent;
#[cfg(feature = "entries")]
pub mod message;
#[cfg(feature = "entries")]
pub mod plan;
#[cfg(feature = "entries")]
pub mod raw;
#[cfg(feature = "entries")]
mod record;
#[cfg(feature = "entries")]
mod station;
#[cfg(feature = "entries")]
mod totals;

pub use answers::{Answer, Issue, Refusal};
pub use fields::{Belt, Belts, Event, Height, Kind, Op, Orientation, Outcome, Row, Rows, Side, Size, Toward};
pub use instruction::{Instruction, NoInstruction};
pub use numbers::Number;
pub use places::{Parts, Place, Whereabouts};

#[cfg(feature = "entries")]
pub use building::version;
#[cfg(feature = "entries")]
pub use desk::{Card, Desk, Line};
#[cfg(feature = "entries")]
pub use record::{Condition, Record};
#[cfg(feature = "entries")]
pub use station::Station;
#[cfg(feature = "entries")]
pub use totals::Totals;
