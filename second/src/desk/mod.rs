//! What a desk is (`docs/DESK.md`): what it keeps, what a command is and how it is written,
//! and what is foreseen of a line. The commands themselves stand in `calls`.

pub mod foreseen;
pub mod foreseer;
pub mod form;
pub mod script;
pub mod spelling;
