//! The paper "Build scope and exact rules", heading by heading and by brute force, and what
//! was requested after it. Nothing here knows of memory words or of a desk.

pub mod band;
pub mod hall;
pub mod lanes;
pub mod marks;
pub mod profile;
pub mod refusals;
pub mod search;
pub mod wheel;
