//! The command line: its words, its help, and what each command does.

pub mod arguments;
pub mod completion;
pub mod help;
pub mod inspect;
pub mod manual;
pub mod options;
pub mod receive;
pub mod send;
pub mod words;
