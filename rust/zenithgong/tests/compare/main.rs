//! The library held to the reference on many inputs, and its declarations to the Rattle source.
//! Each test says how many calls of the library it made, as `library` has counted them; a failure names its seed.
mod blanking;
mod declarations;
mod document;
mod files;
mod hits;
mod library;
mod maps;
mod refusals;
mod sources;
mod support;
mod texts;
mod vectors;
