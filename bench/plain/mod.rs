//! The plain evaluator that the library is measured against: the block read into a table, and must and can as two functions that
//! call themselves on the children, rule by rule as the statement words them. No allocation; sets are words of bits.

mod can;
mod clash;
mod codes;
mod instant;
mod keep;
mod loops;
mod must;
mod read;
mod records;
mod state;
mod table;
mod values;

pub use instant::{instant, Answer};
