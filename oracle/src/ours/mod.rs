//! The Rattle code, through its static libraries: what crosses the boundary is
//! numbers, and slices as pointer and count.
//!
//! Every call is proved to be safe on any numbers. What is left to this side, and
//! what each SAFETY comment is about: a pointer comes with the count of its own
//! slice, and what is lent to be written overlaps nothing else that is lent. A
//! call to which no slice is lent is declared safe.

pub mod bits;
pub mod builder;
pub mod dct;
pub mod lanes;
pub mod layout;
pub mod planes;
pub mod shown;
pub mod shuffles;
pub mod tables;
