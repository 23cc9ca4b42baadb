//! `libjazmotip.a` against an implementation of its own (`reference`). A test that draws its cases prints the seed of the case that
//! fails; `JAZMOTIP_SEED=<seed>` runs that case alone, `JAZMOTIP_CASES=<n>` runs n times as many.

mod c_programs;
mod captures;
mod class;
mod lent;
mod line;
mod losses;
mod pairs;
mod random;
mod recordings;
mod reference;
mod sealing;
mod store;
mod tally;
mod values;
mod xgpon;
