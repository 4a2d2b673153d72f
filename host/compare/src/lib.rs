//! The library against the original, on the same windows.

pub mod check;
pub mod draft;
pub mod form;
pub mod judge;
pub mod random;
pub mod record;
pub mod report;
pub mod rewriting;
pub mod walk;
pub mod window;
pub mod windows;
