//! Runs the built command `bsm`, the launchers at the repository's root, the
//! examples, and what the documents show.

mod choosing;
mod documents;
mod escapes;
mod examples;
mod failing;
mod files;
mod follow;
mod help;
mod launchers;
mod listing;
mod mistyped;
mod newest;
mod printing;
mod record;
mod run;
mod spoilt;
mod trails;
mod two_subjects;
