//! The text form of a recipe: its types and each bay's term, printed and read.

pub mod hints;
pub mod layout;
pub mod node_types;
pub mod numbering;
pub mod parser;
pub mod printer;
pub mod spelling;
pub mod spot;
pub mod starts;
pub mod term_parser;
pub mod tokens;
pub mod type_parser;
pub mod type_texts;
