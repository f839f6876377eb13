//! Answers put into words: of each the lines, the verdict first.

pub mod check;
pub mod legs;
pub mod moved;
pub mod one_move;
pub mod outline;
pub mod same;
pub mod shift;
pub mod slide;
