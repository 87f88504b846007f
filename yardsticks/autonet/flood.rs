//! `flood`: how broadcasts go, up the tree to the root and then down by every tree link.

use crate::script::Script;
use crate::text::push_number;
use crate::wiring::{components, Far, Member, Wiring};

pub fn flood_text(script: &Script) -> Vec<u8> {
    let wiring = &script.wiring;
    let mut out = Vec::new();
    let mut parents = vec![None; wiring.switches.len()];
    for members in components(wiring) {
        for member in &members {
            parents[member.switch] = member.parent;
        }
        let down = down_text(wiring, &members);
        for member in &members {
            push_line(&mut out, "flood ", &wiring.switches[member.switch].name, None);
            let mut at = member.switch;
            while let Some((parent, port)) = parents[at] {
                push_line(&mut out, "up ", &wiring.switches[at].name, Some(port));
                at = parent;
            }
            out.extend_from_slice(&down);
            out.extend_from_slice(b"copies ");
            push_number(&mut out, members.len() as u64);
            out.push(b'\n');
        }
    }
    out.extend_from_slice(b"end\n");
    out
}

/// The hops down, by level, life and port of the sender.
fn down_text(wiring: &Wiring, members: &[Member]) -> Vec<u8> {
    let tree_links = members.iter().filter_map(|member| {
        let (parent, port) = member.parent?;
        match wiring.far(member.switch, port) {
            Far::Switch(_, far_port) => Some((member.level, wiring.switches[parent].uid, far_port, parent)),
            _ => None,
        }
    });
    let mut hops: Vec<_> = tree_links.collect();
    hops.sort_unstable();
    let mut out = Vec::new();
    for (_, _, port, parent) in hops {
        push_line(&mut out, "down ", &wiring.switches[parent].name, Some(port));
    }
    out
}

fn push_line(out: &mut Vec<u8>, word: &str, name: &str, port: Option<u8>) {
    out.extend_from_slice(word.as_bytes());
    out.extend_from_slice(name.as_bytes());
    if let Some(port) = port {
        out.push(b' ');
        push_number(out, u64::from(port));
    }
    out.push(b'\n');
}
