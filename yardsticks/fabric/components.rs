//! The strongly connected components of the dependencies, by Tarjan.

use crate::graph::Channels;

/// The component of what is no channel, and of a channel whose component is not known yet.
pub const NONE: u32 = u32::MAX;

/// The component of each channel.
pub fn components(channels: &Channels) -> Vec<u32> {
    let mut search = Search::new(channels);
    // the channels on the way, and of each the least channel that was not looked at
    let mut visits: Vec<(u32, u32)> = Vec::new();
    for start in channels.all() {
        if search.met[start] == 0 {
            search.meet(start);
            visits.push((start as u32, 0));
        }
        while let Some((channel, least)) = visits.last_mut() {
            let channel = *channel as usize;
            if let Some(next) = search.advance(channel, *least as usize) {
                *least = next as u32 + 1;
                search.meet(next);
                visits.push((next as u32, 0));
                continue;
            }
            visits.pop();
            if search.low[channel] == search.met[channel] {
                search.close(channel);
            } else if let Some(&(before, _)) = visits.last() {
                let low = search.low[channel];
                search.lower(before as usize, low);
            }
        }
    }
    search.components
}

struct Search<'a> {
    channels: &'a Channels<'a>,
    /// The number of each channel in the order in which they were met, from 1; 0 if it was not.
    met: Vec<u32>,
    /// The least number to which each is known to lead within its component.
    low: Vec<u32>,
    components: Vec<u32>,
    /// The channels that were met and have no component yet.
    open: Vec<u32>,
    met_count: u32,
    component_count: u32,
}

impl<'a> Search<'a> {
    fn new(channels: &'a Channels<'a>) -> Search<'a> {
        let nodes = channels.nodes();
        Search {
            channels,
            met: vec![0; nodes],
            low: vec![0; nodes],
            components: vec![NONE; nodes],
            open: Vec::new(),
            met_count: 0,
            component_count: 0,
        }
    }

    fn meet(&mut self, channel: usize) {
        self.met_count += 1;
        self.met[channel] = self.met_count;
        self.low[channel] = self.met_count;
        self.open.push(channel as u32);
    }

    fn lower(&mut self, channel: usize, low: u32) {
        self.low[channel] = self.low[channel].min(low);
    }

    /// The next channel to which one leads, not below a least one, that was not met.
    #[inline]
    fn advance(&mut self, channel: usize, least: usize) -> Option<usize> {
        for next in self.channels.successors_from(channel, least) {
            if self.met[next] == 0 {
                return Some(next);
            }
            if self.components[next] == NONE {
                self.lower(channel, self.met[next]);
            }
        }
        None
    }

    /// Closes the component of the channel that was met first in it.
    fn close(&mut self, first: usize) {
        while let Some(channel) = self.open.pop() {
            self.components[channel as usize] = self.component_count;
            if channel as usize == first {
                break;
            }
        }
        self.component_count += 1;
    }
}
