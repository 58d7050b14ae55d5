//! The proved checker, linked as a static library, and the reference checker on the same
//! bytes: which files are timed, how, and how the figures are printed.

pub mod agreement;
pub mod earlier;
pub mod files;
pub mod format;
pub mod proved;
pub mod report;
pub mod stack;
pub mod timing;
