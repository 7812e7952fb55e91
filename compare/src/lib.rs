//! The proved panel library beside two plain implementations of document 01: one written to be read, one for speed.
pub mod guarded;
pub mod panel;
pub mod random;
pub mod reference;
pub mod tuned;
