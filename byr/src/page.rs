//! The auditor's file: a page in HTML.

mod by_hand;
mod html;
pub mod report;
