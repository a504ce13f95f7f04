//! The second replay held to document 01, in its own numbers.

mod events;
mod examples;
mod helpers;
mod limits;
mod records;
mod sheets;
mod slips;
mod voting;
