//! Independent second program: answers by other ways, and cases with their expected outcomes.

pub mod answer;
pub mod cases;
pub mod frames;
pub mod journal;
pub mod judge;
pub mod parcel;
pub mod rows;
