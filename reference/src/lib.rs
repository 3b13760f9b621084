//! A second, plain program for document 01, written from its words alone.
//! It is slow where slow is simpler, and it is proved by nothing: it exists
//! to be compared with the proved program.

pub mod contest;
pub mod draw;
pub mod edges;
pub mod engine;
pub mod estimates;
#[cfg(feature = "generator")]
pub mod generate;
pub mod loads;
pub mod random;
pub mod record;
pub mod refusal;
pub mod register;
pub mod releases;
pub mod run;
pub mod settings;
pub mod step;
pub mod vault;
pub mod watch;
pub mod whole;
pub mod write;

pub use releases::releases;
pub use run::{ran, run};
pub use whole::{whole_run, whole_text};
