//! An independent implementation of document 01, and what is needed to compare the proved library with it.
//!
//! It was written from the document alone, without sight of the proved code, and shares nothing with it.
//! Where the two print different pages, one of them has misread the document.

pub mod damage;
pub mod generate;
pub mod page;
pub mod proved;
pub mod random;
pub mod reader;
pub mod refusal;
pub mod ring;
pub mod run;
pub mod trail;

pub use page::print;
