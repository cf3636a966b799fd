//! An independent model of the depth label service, written from its specification alone.
//! It works on sets of depths; pieces of the line appear only where a table is laid out.

pub mod block;
pub mod charge;
pub mod depths;
pub mod derive;
pub mod frame;
pub mod held;
pub mod joined;
pub mod listing;
pub mod moved;
pub mod service;
pub mod short;
pub mod tables;
pub mod terms;
