//! A second opinion on the rig.
//!
//! `file`, `rules` and `listing` state the documents of docs/ once more, in the most literal way, and
//! share no code with the crates. `reckoner` judges a tape by itself. `make` and `damage` make session
//! files from a seed, `documents` has the examples of docs/, `library` and `program` play them on the proved library and on program rig.

pub mod compare;
pub mod damage;
pub mod documents;
pub mod file;
pub mod library;
pub mod listing;
pub mod make;
pub mod program;
pub mod random;
pub mod reckoner;
pub mod rules;
pub mod shrink;
pub mod tally;
