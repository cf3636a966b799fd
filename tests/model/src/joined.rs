//! Which items a question reaches, by links of the least collection, and the contradiction there.

use crate::derive::Collection;
use crate::terms::{Fact, ITEMS, KINDS, NEVER};

impl Collection {
    /// Whether a link of any kind leads from one item to the other at any depth.
    pub fn leads(&self, from: u8, to: u8) -> bool {
        (0..KINDS).any(|kind| !self.link(from, kind, to).is_empty())
    }

    /// Whether the item has NEVER somewhere.
    pub fn is_bad(&self, item: u8) -> bool {
        !self.label(item, NEVER).is_empty()
    }

    /// The items themselves and all that chains of links join to one of them, each once and the
    /// nearest first. A link is followed either way.
    pub fn joined(&self, items: [u8; 2]) -> Vec<u8> {
        let mut reached = items.to_vec();
        reached.dedup();
        let mut next = 0;
        while let Some(&here) = reached.get(next) {
            let linked = |there: &u8| self.leads(here, *there) || self.leads(*there, here);
            let new = |there: &u8| !reached.contains(there) && linked(there);
            let found: Vec<u8> = (0..ITEMS).filter(new).collect();
            reached.extend(found);
            next += 1;
        }
        reached
    }

    /// The lowest item with NEVER among those joined to what is asked about.
    pub fn contradiction(&self, asked: Fact) -> Option<u8> {
        let joined = self.joined(asked.items()).into_iter();
        joined.filter(|&item| self.is_bad(item)).min()
    }
}
