//! The topics of the comparison, one a file.

mod audit;
mod build_assigned;
mod build_compact;
pub mod builds;
mod cut;
pub mod feed;
mod files;
mod images;
pub mod lookup;
mod mix;
mod openings;
pub mod pack;
mod ranks;
mod sizes;
mod unpack;
mod verts;

use crate::rng::Rng;
use crate::tally::{Difference, Need, Tally};

pub struct Topic {
    pub name: &'static str,
    pub needs: &'static [Need],
    run: fn(&mut Tally, &mut Rng) -> Result<(), Difference>,
}

pub const ALL: [Topic; 14] = [
    mix::TOPIC,
    verts::TOPIC,
    sizes::TOPIC,
    pack::TOPIC,
    unpack::TOPIC,
    build_assigned::TOPIC,
    build_compact::TOPIC,
    ranks::TOPIC,
    lookup::TOPIC,
    images::TOPIC,
    openings::TOPIC,
    cut::TOPIC,
    audit::TOPIC,
    feed::TOPIC,
];

impl Topic {
    /// Compares everything of the topic; its needs are met where it answers a tally.
    pub fn compare(&self, seed: u64) -> Result<Tally, Difference> {
        let mut tally = Tally::default();
        (self.run)(&mut tally, &mut Rng::for_topic(seed, self.name))?;
        tally.check(self.name, self.needs);
        Ok(tally)
    }
}
