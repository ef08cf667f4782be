//! Stands in for `fxhash`: with exact keys, unless the feature `published` asks for the published algorithm.
#[cfg(not(feature = "published"))]
mod exact;
#[cfg(feature = "published")]
mod published;

#[cfg(not(feature = "published"))]
pub use exact::{forget, FxHashMap, FxHasher64};
#[cfg(feature = "published")]
pub use published::{forget, FxHashMap, FxHasher64};
