//! Load-line marks of type A and type B ships, 24 to 365 m: a second working of the same rules.
//! Type B has four kinds: the plain one, two with a reduced table line, and one with portable covers.
//! Each of them may have timber marks besides.
//!
//! The regulation numbers are those of Annex I of the Load Lines Protocol as amended in 2003.
//! Stations, heights and marks are whole mm; freeboards on the way to a mark are whole
//! micrometres (um).

pub mod big;
pub mod bits;
pub mod exact;
pub mod marks;
pub mod question;
pub mod random;
pub mod record;
pub mod refusal;
pub mod report;
pub mod table27;
pub mod table28;
