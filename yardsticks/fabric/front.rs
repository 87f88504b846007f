//! How far the routes to a block of LIDs have come.

use std::collections::VecDeque;

/// The LIDs of a block, a bit for each, at the places to which their routes come.
pub struct Front {
    places: Vec<Place>,
    /// The places with LIDs that came and did not go on yet.
    queue: VecDeque<u32>,
}

#[derive(Clone, Copy, Default)]
struct Place {
    /// The LIDs that came and went on.
    gone: u64,
    /// Those that came and did not go on yet.
    fresh: u64,
}

impl Front {
    pub fn new(places: usize) -> Front {
        Front { places: vec![Place::default(); places], queue: VecDeque::new() }
    }

    /// Begins anew, with these LIDs at each place.
    pub fn begin(&mut self, lids: &[u64]) {
        for (at, (place, &fresh)) in self.places.iter_mut().zip(lids).enumerate() {
            *place = Place { gone: 0, fresh };
            if fresh != 0 {
                self.queue.push_back(at as u32);
            }
        }
    }

    /// The next place with LIDs that did not go on yet; they do now.
    #[inline]
    pub fn advance(&mut self) -> Option<(usize, u64)> {
        let at = self.queue.pop_front()? as usize;
        let place = &mut self.places[at];
        let lids = std::mem::take(&mut place.fresh);
        place.gone |= lids;
        Some((at, lids))
    }

    /// The LID of a bit comes to a place.
    #[inline]
    pub fn come(&mut self, at: usize, i: usize) {
        let (place, bit) = (&mut self.places[at], 1 << i);
        if (place.gone | place.fresh) & bit == 0 {
            if place.fresh == 0 {
                self.queue.push_back(at as u32);
            }
            place.fresh |= bit;
        }
    }
}
