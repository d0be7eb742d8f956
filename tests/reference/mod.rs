//! The reference: a second, separate reading of the rules, kept plain so that it can be checked by
//! eye. It is a program (`main.rs`) and a module that the differential tester calls in-process.

pub mod access;
pub mod arbiter;
pub mod assumptions;
pub mod dumps;
pub mod guarantees;
pub mod judge;
pub mod lines;
pub mod spans;
pub mod steps;
