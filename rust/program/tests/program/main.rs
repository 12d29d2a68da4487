//! The program, run.

mod commands;
mod common;
mod documents;
mod files;
mod jobs;
mod load;
mod sample;
mod shares;
mod shells;
mod shots;
mod sizes;
