//! What the comparisons and the benchmark share: the proved library behind
//! safe functions, the same beside the second program, sound states of any
//! size, and damage to states.

#![deny(warnings)]

pub mod beside;
pub mod damage;
pub mod ivleague;
pub mod used;
