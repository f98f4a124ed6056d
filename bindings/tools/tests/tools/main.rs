//! Tests of the tools, and of what they share.

mod callers;
mod certificates;
mod commands;
mod drafts;
mod explanations;
mod fixes;
mod joins;
mod messages;
mod pages;
mod parting_strings;
mod plans;
mod spelling;
mod strings;
mod support;
mod trees;
