//! Every call of the library held against the model: the number given and every byte of everything lent.
//!
//! SHQEMTULI_SEED and SHQEMTULI_ROUNDS set the seed and the length of the run.

mod call;
mod coding;
mod garbage;
mod layout;
mod lent;
mod reference;
mod sequences;
mod sheets;
mod tally;
mod wrapper;
