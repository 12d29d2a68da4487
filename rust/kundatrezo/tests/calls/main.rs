//! The calls through the library.

mod by_shot;
mod codes;
mod declarations;
mod editions;
mod instructions;
mod make;
mod names;
mod output;
mod refusals;
mod seeds;
mod shares;
mod shots;
mod single_faults;
mod starred;
