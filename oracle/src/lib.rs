//! The oracle: the Rust sampler, compiled unchanged from its own files, behind the script language of the
//! program `replay`. docs/ORACLE.md says what is compared and what is not.
//!
//! Five modules are the Rust's text (build.rs lays it out): `distribution`, `param`, `rng_util`,
//! `sampler::common` and `sampler::de`. Everything else here was written for the comparison, `midpoint` and `ladder` with
//! it, which the Rust does not have.

/// The Rust's distribution.rs.
#[allow(clippy::all)]
pub mod distribution {
    include!(concat!(env!("OUT_DIR"), "/distribution.rs"));
}

/// The Rust's param.rs.
#[allow(clippy::all)]
pub mod param {
    include!(concat!(env!("OUT_DIR"), "/param.rs"));
}

/// The Rust's rng_util.rs.
#[allow(clippy::all, dead_code)]
pub(crate) mod rng_util {
    include!(concat!(env!("OUT_DIR"), "/rng_util.rs"));
}

/// Of the Rust's sampler/mod.rs what de.rs reads, and the two files beside it.
pub mod sampler {
    use crate::distribution::Distribution;
    use crate::param::ParamValue;

    include!(concat!(env!("OUT_DIR"), "/sampler/trait.rs"));

    /// A stand-in: of the Rust's completed trial the two fields that de.rs reads.
    #[derive(Clone, Copy, Debug)]
    pub struct CompletedTrial<V = f64> {
        /// The trial's number.
        pub id: u64,
        /// Its result.
        pub value: V,
    }

    /// The Rust's sampler/common.rs.
    #[allow(clippy::all)]
    pub(crate) mod common {
        include!(concat!(env!("OUT_DIR"), "/sampler/common.rs"));
    }

    /// The Rust's sampler/de.rs, with the probe in the same module, since it reads private fields.
    #[allow(clippy::all)]
    pub mod de {
        include!(concat!(env!("OUT_DIR"), "/sampler/de.rs"));
        include!("probe.rs");

        /// The functions of de.rs once more, for calls that a ladder has a part in: over the same private state, and the
        /// Rust's but for the three functions of common.rs, in whose place they call `crate::ladder`.
        pub mod by_ladder {
            use super::*;
            use crate::ladder::{from_internal, internal_bounds, sample_random};

            /// A sampler that is called through this copy.
            pub struct Called<'a>(pub &'a DESampler);

            impl std::ops::Deref for Called<'_> {
                type Target = DESampler;

                fn deref(&self) -> &DESampler {
                    self.0
                }
            }

            include!(concat!(env!("OUT_DIR"), "/sampler/ladder.rs"));
        }

        /// The same once more, for set-ups with midpoint: where crossover takes the mutant's entry it calls
        /// `crate::midpoint` too.
        pub mod by_midpoint {
            use super::*;
            use crate::ladder::{from_internal, internal_bounds, sample_random};

            /// A sampler that is called through this copy.
            pub struct Called<'a>(pub &'a DESampler);

            impl std::ops::Deref for Called<'_> {
                type Target = DESampler;

                fn deref(&self) -> &DESampler {
                    self.0
                }
            }

            include!(concat!(env!("OUT_DIR"), "/sampler/midpoint.rs"));
        }
    }
}

mod answers;
pub mod campaign;
mod closing;
pub mod compare;
pub mod counted;
pub mod counts;
mod draws;
pub mod driver;
pub mod entries;
pub mod export;
pub mod faults;
pub mod fixed;
pub mod generate;
pub mod history;
pub mod judge;
mod kept;
pub mod ladder;
pub mod midpoint;
mod reader;
pub mod rungs;
mod saved;
pub mod script;
pub mod sections;
mod served;
mod shrink;
pub mod text;
pub mod workers;

#[cfg(test)]
mod ladder_tests;
#[cfg(test)]
mod saved_tests;
#[cfg(test)]
mod tests;
