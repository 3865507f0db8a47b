//! A second opinion on the planner: a planner and a machine that share no code with the product, its
//! C functions beside them, and the random tables on which the two are compared.

pub mod change;
pub mod clock;
pub mod compare;
pub mod damage;
pub mod generate;
pub mod graph;
pub mod layout;
pub mod machine;
pub mod plan;
pub mod planner;
pub mod print;
#[cfg(product)]
pub mod product;
pub mod random;
pub mod report;
pub mod samples;
pub mod schedule;
pub mod stack;
pub mod table;
pub mod terms;
pub mod text;
