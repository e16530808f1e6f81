//! The book against figures worked out by hand.
mod answers;
mod days;
mod desk;
mod messages;
mod pls;
mod rows;
mod slabs;
