//! Answers drawn as pictures.

pub mod canvas;
pub mod one_move;
pub mod outline;
pub mod slide;
