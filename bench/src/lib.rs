//! A fast program for document 01's run files, and the files on which it is measured beside the proved one.
pub mod fast;
pub mod files;
