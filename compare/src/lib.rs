//! A second implementation of Moonbleat and its comparison with the proved archive.

pub mod bench;
pub mod case;
mod clipped;
pub mod coverage;
pub mod damage;
#[cfg(test)]
mod faults;
pub mod generate;
pub mod jobs;
#[cfg(test)]
mod mask_faults;
mod mask_sights;
mod masks;
mod neighbours;
#[cfg(test)]
mod object_faults;
mod object_sights;
mod order_sights;
mod orders;
mod outcomes;
pub mod random;
pub mod reference;
pub mod shrink;
mod side_sights;
mod span_sights;
#[cfg(test)]
mod store_faults;
mod stores;
pub mod strips;
pub mod tapes;
mod trace_sights;
mod traces;
mod vector_sights;
