//! The program as a person or a script runs it: exit status and both streams.

mod explain;
mod fit;
mod read;
mod run;
mod streams;
mod usage;
