//! Ranks, which fall along each dependency. If there are any, no dependencies lead round.

use crate::graph::Channels;

/// The rank of a channel that was not visited, and of what is no channel.
const NEW: u32 = u32::MAX;
/// The rank of a channel that is being visited.
const OPEN: u32 = u32::MAX - 1;

/// That dependencies lead round, so that there are no ranks.
pub struct Cyclic;

/// The ranks: 0 if a channel leads nowhere, else one more than the greatest to which it leads.
pub fn ranks(channels: &Channels) -> Result<Vec<u32>, Cyclic> {
    let mut ranks = vec![NEW; channels.nodes()];
    let mut visits: Vec<Visit> = Vec::new();
    for start in channels.all() {
        if ranks[start] == NEW {
            visits.push(Visit::new(start, &mut ranks));
        }
        while let Some(visit) = visits.last_mut() {
            if let Some(next) = visit.advance(channels, &ranks)? {
                visits.push(Visit::new(next, &mut ranks));
                continue;
            }
            let Visit { channel, rank, .. } = *visit;
            ranks[channel as usize] = rank;
            visits.pop();
            if let Some(before) = visits.last_mut() {
                before.rank = before.rank.max(rank + 1);
            }
        }
    }
    Ok(ranks)
}

/// A channel that is being visited.
struct Visit {
    channel: u32,
    /// The least that its rank can be, by the channels that were looked at.
    rank: u32,
    /// The least channel that was not looked at.
    least: u32,
}

impl Visit {
    fn new(channel: usize, ranks: &mut [u32]) -> Visit {
        ranks[channel] = OPEN;
        Visit { channel: channel as u32, rank: 0, least: 0 }
    }

    /// The next channel to which it leads that has no rank.
    #[inline]
    fn advance(&mut self, channels: &Channels, ranks: &[u32]) -> Result<Option<usize>, Cyclic> {
        for next in channels.successors_from(self.channel as usize, self.least as usize) {
            match ranks[next] {
                NEW => {
                    self.least = next as u32 + 1;
                    return Ok(Some(next));
                }
                OPEN => return Err(Cyclic),
                rank => self.rank = self.rank.max(rank + 1),
            }
        }
        Ok(None)
    }
}

/// Whether the rank of each channel is the least that is greater than those of all to which it leads.
pub fn are_ranks(channels: &Channels, ranks: &[u32]) -> bool {
    channels.all().all(|channel| {
        let above = channels.successors(channel).map(|next| u64::from(ranks[next]) + 1);
        u64::from(ranks[channel]) == above.max().unwrap_or(0)
    })
}
