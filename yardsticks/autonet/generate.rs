//! `gen SEED N`: a script made from a number, and how its run on one thread ends.

use crate::journal::push_event;
use crate::script::{Command, Event, Script};
use crate::solo;
use crate::text::push_number;
use crate::wiring::{Far, Host, Link, Switch, Wiring};
use crate::world::Line;

pub fn gen_text(seed: u64, count: usize) -> Vec<u8> {
    let script = script_of(seed, count);
    let (mut delivered, mut dropped) = (0, 0);
    let end = solo::run(&script, |world, _| {
        for line in &world.lines {
            match line {
                Line::Moved { delivered: Some(_), .. } => delivered += 1,
                Line::Unsent { .. } | Line::Fell { .. } => dropped += 1,
                _ => {}
            }
        }
    });
    let mut out = script_text(&script);
    out.extend_from_slice(
        format!("# {} delivered {delivered} dropped {dropped}\n", end.text(false)).as_bytes(),
    );
    out
}

/// Numbers by a linear congruence.
struct Draw(u64);

impl Draw {
    fn below(&mut self, m: usize) -> usize {
        self.0 = self.0.wrapping_mul(6_364_136_223_846_793_005).wrapping_add(1_442_695_040_888_963_407);
        ((self.0 >> 33) % m as u64) as usize
    }
}

/// A tree with further links, a host at each switch, and packets before and after a failure and its repair.
fn script_of(seed: u64, count: usize) -> Script {
    let mut draw = Draw(seed);
    let mut script = Script::default();
    let wiring = &mut script.wiring;
    for i in 1..=count {
        wiring.add_switch(Switch { name: format!("S{i}"), uid: i as u64, had: 1 });
    }
    for i in 1..count {
        let mut above = draw.below(i);
        while !connect(wiring, above, i) {
            above = (above + 1) % i;
        }
    }
    for _ in 0..count {
        let (a, b) = (draw.below(count), draw.below(count));
        if a != b {
            connect(wiring, a, b);
        }
    }
    for i in 0..count {
        wiring.add_host(Host {
            name: format!("H{}", i + 1),
            uid: (1 << 40) + i as u64 + 1,
            switch: i,
            port: 12,
        });
    }
    let mut at = |time, event| script.commands.push(Command { time, event });
    (0..count).for_each(|i| at(10, Event::Send(i, (i + 1) % count)));
    if count >= 2 {
        at(20, Event::Fail(0, 1));
        at(60, Event::Repair(0, 1));
    }
    (0..count).for_each(|i| at(80, Event::Send(i, (i + 1) % count)));
    script
}

/// Links two switches by their lowest free ports of 1 to 8, where both have one.
fn connect(wiring: &mut Wiring, a: usize, b: usize) -> bool {
    let free = |switch| (1..=8).find(|&port| wiring.far(switch, port) == Far::Nothing);
    let (Some(a_port), Some(b_port)) = (free(a), free(b)) else {
        return false;
    };
    wiring.add_link(Link { a, a_port, b, b_port });
    true
}

/// The canonical text of a script without settings.
fn script_text(script: &Script) -> Vec<u8> {
    let wiring = &script.wiring;
    let name = |switch: usize| &wiring.switches[switch].name;
    let mut text = String::from("autonet 1\n");
    for switch in &wiring.switches {
        text += &format!("switch {} {:012x}\n", switch.name, switch.uid);
    }
    for link in &wiring.links {
        text += &format!("link {} {} {} {}\n", name(link.a), link.a_port, name(link.b), link.b_port);
    }
    for host in &wiring.hosts {
        text += &format!("host {} {:012x} {} {}\n", host.name, host.uid, name(host.switch), host.port);
    }
    let mut out = text.into_bytes();
    for command in &script.commands {
        out.extend_from_slice(b"at ");
        push_number(&mut out, command.time);
        out.push(b' ');
        push_event(&mut out, script, command.event);
    }
    out.extend_from_slice(b"end\n");
    out
}
