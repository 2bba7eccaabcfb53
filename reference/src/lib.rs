//! Entry rules with blanks: the six calls of document 01 in plain Rust, with the truth tests (Point 1), the two calls for comma
//! files (Point 2) and the declined cells (Point 4) of document 02. Its Point 3 changes no answer.
//!
//! The modules follow the sections of the paper. A rule goes from the text to tokens (`text`), from tokens to a tree
//! (`grammar`), from the tree to parts (`rule`). Parts have a three-valued meaning (`meaning`) and a translation without
//! negation (`translate`), whose bytes are the card (`card`). The card is run (`runner`) with the tables (`tables`) alone:
//! `card`, `runner` and `tables` use nothing of the reader. Comma lines (`lines`) go to a tables file and back, with numbers as a
//! rule has them (`number`). `calls` joins these to READ, JUDGE, CARD, CHECK, RUN, LIST, IMPORT and EXPORT.
#![forbid(unsafe_code)]
#![warn(missing_docs)]

mod calls;
mod card;
mod comparison;
mod grammar;
mod lines;
mod meaning;
mod number;
mod part;
mod refusal;
mod rule;
mod runner;
mod tables;
mod text;
mod translate;
mod value;

pub use calls::{card, check, export, import, judge, list, read, run};
pub use meaning::Truth;
pub use part::Part;
pub use refusal::Refusal;
pub use value::Value;
