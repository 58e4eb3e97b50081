//! The command `pocket-plan`: a job file planned by the proved planner, its report in words, and its outputs.
pub mod file;
pub mod image;
pub mod list;
pub mod mistake;
pub mod options;
pub mod output;
pub mod page;
pub mod picture;
pub mod progress;
pub mod scene;
pub mod why;
pub mod words;
