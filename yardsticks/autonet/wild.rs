//! Runs in which each event is drawn from those that may come.

use crate::report::End;
use crate::script::{Event, Script};
use crate::world::World;

/// Numbers that are drawn from a seed.
struct Draw(u64);

impl Draw {
    fn below(&mut self, m: usize) -> usize {
        self.0 = self.0.wrapping_add(0x9e37_79b9_7f4a_7c15);
        let mixed = (self.0 ^ (self.0 >> 30)).wrapping_mul(0xbf58_476d_1ce4_e5b9);
        let mixed = (mixed ^ (mixed >> 27)).wrapping_mul(0x94d0_49bb_1331_11eb);
        ((mixed ^ (mixed >> 31)) % m as u64) as usize
    }
}

/// The events of a run to its end. Some switches are slow: mostly another event is drawn where one may come.
pub fn run(script: &Script, seed: u64) -> Vec<Event> {
    let mut draw = Draw(seed);
    let count = script.wiring.switches.len();
    let mut is_slow: Vec<bool> = (0..count).map(|_| draw.below(3) == 0).collect();
    let mut world = World::new(script);
    let mut events = Vec::new();
    while End::of(&world).is_none() {
        if draw.below(400) == 0 {
            is_slow = (0..count).map(|_| draw.below(3) == 0).collect();
        }
        let may_come = lawful(&world);
        let quick: Vec<Event> = may_come
            .iter()
            .copied()
            .filter(|&event| !place(event).is_some_and(|place| is_slow[place]))
            .collect();
        let among = if quick.is_empty() || draw.below(8) == 0 { &may_come } else { &quick };
        let event = among[draw.below(among.len())];
        world.step(event);
        events.push(event);
    }
    events
}

/// The switch whose worker makes an event, if one does.
fn place(event: Event) -> Option<usize> {
    match event {
        Event::Clock(switch) | Event::Handle(switch) | Event::Load(switch) | Event::Take(switch, _) => {
            Some(switch)
        }
        _ => None,
    }
}

/// All events that may come next.
fn lawful(world: &World) -> Vec<Event> {
    let switches = 0..world.script.wiring.switches.len();
    let of_switch = |switch| {
        let takes = (1..=12).map(move |port| Event::Take(switch, port));
        [Event::Clock(switch), Event::Handle(switch), Event::Load(switch)].into_iter().chain(takes)
    };
    let moves = (1..=world.script.commands.len() as u32).map(Event::Move);
    let others = [Event::Tick].into_iter().chain(world.command_due()).chain(moves);
    switches.flat_map(of_switch).chain(others).filter(|&event| world.is_lawful(event)).collect()
}
