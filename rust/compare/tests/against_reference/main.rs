//! The proved library against the crate `reference`, and against the cases
//! of paper 01. All in one program, so that the tests share the cores.

mod bodies;
mod cases;
mod edges;
mod expanded;
mod face;
mod failing;
mod growing;
mod index;
mod listing;
mod newest;
mod placed;
mod places;
mod program;
mod soak;
mod strings;
mod subjects;
mod texts;
mod texts_cut;
mod texts_written;
mod trails;
mod versions;
mod writers;
