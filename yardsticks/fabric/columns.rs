//! The tables by LIDs: a column has the entries of all switches for one LID.

use crate::model::{Fabric, NO_PORT};
use crate::traffic::{Owner, Sources};

/// How many LIDs are taken together.
pub const BLOCK: usize = 64;

/// The entries for a LID.
pub struct Column<'a> {
    pub lid: usize,
    pub owner: Owner,
    /// The port of each switch's entry.
    pub ports: &'a [u8],
}

/// Visits the column of each LID to which is sent, in rising order.
pub fn each_column(sources: &Sources, mut visit: impl FnMut(&Column)) {
    let switches = sources.fabric.switches.len();
    let mut columns = vec![NO_PORT; BLOCK * switches];
    for (first, owners) in blocks(sources) {
        for switch in 0..switches {
            let row = &sources.fabric.table(switch)[first..first + owners.len()];
            for (i, &port) in row.iter().enumerate() {
                columns[i * switches + switch] = port;
            }
        }
        for (i, owner) in owners.iter().enumerate() {
            if let Some(owner) = *owner {
                let ports = &columns[i * switches..][..switches];
                visit(&Column { lid: first + i, owner, ports });
            }
        }
    }
}

/// The first LID of each block with a LID to which is sent, and the owners in the block.
pub fn blocks<'a>(sources: &'a Sources) -> impl Iterator<Item = (usize, &'a [Option<Owner>])> {
    let blocks = sources.owners.chunks(BLOCK).enumerate();
    blocks
        .map(|(place, owners)| (place * BLOCK, owners))
        .filter(|(_, owners)| owners.iter().any(Option::is_some))
}

/// The entries of each switch for a block of LIDs, together: else each read is of another page.
pub struct Block(Vec<[u8; BLOCK]>);

impl Block {
    pub fn new(fabric: &Fabric) -> Block {
        Block(vec![[NO_PORT; BLOCK]; fabric.switches.len()])
    }

    /// Takes the entries for so many LIDs from a first one on.
    pub fn take(&mut self, fabric: &Fabric, first: usize, many: usize) {
        for (switch, row) in self.0.iter_mut().enumerate() {
            row[..many].copy_from_slice(&fabric.table(switch)[first..first + many]);
        }
    }

    /// The ports of a switch's entries.
    #[inline]
    pub fn row(&self, switch: usize) -> &[u8; BLOCK] {
        &self.0[switch]
    }
}
