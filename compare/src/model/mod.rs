//! What document 01 says, computed in the plainest way and from that document alone: neither from
//! the Rust nor from the proved sources. What attacks the library holds every call to it.

pub mod build;
pub mod feed;
pub mod hash;
pub mod image;
pub mod list;
pub mod lookup;
pub mod rank;
