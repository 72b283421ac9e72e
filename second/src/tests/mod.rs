//! Tests of the whole: that the model says what the documents say, that the lives find errors
//! which are planted, and that a desk is driven rightly. None needs a desk.

mod cards;
mod documents;
mod driving;
mod layers;
mod lives;
mod mistaken;
mod paper;
mod planted;
