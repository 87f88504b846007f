//! The least cycle of dependencies.

use crate::graph::Channels;
use std::collections::VecDeque;

/// The steps of a channel from which none are known.
const NEVER: u32 = u32::MAX;

/// The least cycle: from the least channel on any cycle, a shortest, and of these the least as a list.
pub fn least_cycle(channels: &Channels, components: &[u32]) -> Option<Vec<usize>> {
    let is_on_cycle =
        |&channel: &usize| channels.successors(channel).any(|next| components[next] == components[channel]);
    let first = channels.all().find(is_on_cycle)?;
    let members: Vec<usize> =
        channels.all().filter(|&channel| components[channel] == components[first]).collect();
    let steps = steps_to(first, &Before::new(channels, &members));
    let mut cycle = vec![first];
    let mut next = channels.successors(first).min_by_key(|&next| steps[next])?;
    while next != first {
        cycle.push(next);
        let less = steps[next] - 1;
        next = channels.successors(next).find(|&after| steps[after] == less)?;
    }
    Some(cycle)
}

/// How many steps lead from each channel to a target. None are told of channels beyond its shortest cycle.
fn steps_to(target: usize, before: &Before) -> Vec<u32> {
    let mut steps = vec![NEVER; before.first.len() - 1];
    steps[target] = 0;
    let mut queue = VecDeque::from([target]);
    while let Some(channel) = queue.pop_front() {
        for &other in before.of(channel) {
            let other = other as usize;
            if other == target {
                return steps;
            }
            if steps[other] == NEVER {
                steps[other] = steps[channel] + 1;
                queue.push_back(other);
            }
        }
    }
    steps
}

/// For each channel the members of a component that lead to it.
struct Before {
    /// Where those of each channel begin in the list, and at the end its length.
    first: Vec<u32>,
    list: Vec<u32>,
}

impl Before {
    fn new(channels: &Channels, members: &[usize]) -> Before {
        let nodes = channels.nodes();
        let mut first = vec![0u32; nodes + 1];
        for &member in members {
            channels.successors(member).for_each(|next| first[next + 1] += 1);
        }
        for node in 0..nodes {
            first[node + 1] += first[node];
        }
        let mut list = vec![0; first[nodes] as usize];
        let mut free = first.clone();
        for &member in members {
            for next in channels.successors(member) {
                list[free[next] as usize] = member as u32;
                free[next] += 1;
            }
        }
        Before { first, list }
    }

    fn of(&self, channel: usize) -> &[u32] {
        &self.list[self.first[channel] as usize..self.first[channel + 1] as usize]
    }
}
