//! Scripts: exhaustive short ones and random ones around every boundary, the same for the same seed. And exports of the
//! metrics collector.

pub mod campaign;
pub mod class;
pub mod decimals;
pub mod dice;
pub mod distributions;
mod edges;
pub mod exhaustive;
pub mod exports;
pub mod ladders;
pub mod malformed;
mod mark;
pub mod plan;
pub mod rate;
pub mod refused;
mod restart;
mod scattered;
pub mod section;
pub mod stream;
pub mod values;
