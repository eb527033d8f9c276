//! The book of accepted message ids.

use std::collections::HashMap;

pub const PLACES: usize = 1_024;

pub type Id = [u8; 32];

/// Each id with the day it was accepted.
pub struct Book {
    days: HashMap<Id, u32>,
}

impl Default for Book {
    fn default() -> Book {
        Book {
            days: HashMap::with_capacity(PLACES),
        }
    }
}

impl Book {
    pub fn holds(&self, id: &Id) -> bool {
        self.days.contains_key(id)
    }

    pub fn is_full(&self) -> bool {
        self.days.len() == PLACES
    }

    pub fn add(&mut self, id: Id, day: u32) {
        self.days.insert(id, day);
    }

    /// Ids accepted before the day leave.
    pub fn leave_before(&mut self, day: u32) {
        self.days.retain(|_, accepted| *accepted >= day);
    }

    pub fn len(&self) -> usize {
        self.days.len()
    }

    pub fn is_empty(&self) -> bool {
        self.days.is_empty()
    }
}
