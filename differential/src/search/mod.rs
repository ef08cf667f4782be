//! Whole searches: the Rust's `enum_aux` over its own cache, document 01's walk by its prose, and our compiled library, on the same inputs.
mod collision;
mod compare;
mod counted;
pub mod drawn;
mod every;
mod input;
mod lent;
mod outside;
mod prose;
mod refused;
mod settled;
mod slices;
mod speed;
pub mod stored;
mod tally;

pub use collision::run as collision;
pub use compare::{due, run, Extent};
pub use input::Input;
pub use outside::{beyond, empty, findings};
pub use slices::run as slices;
pub use speed::run as speed;
pub use speed::run_beside as speed_beside;
