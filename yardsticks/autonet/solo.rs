//! The order of one thread: the workers in the order of the script, each while it has work, then the driver.

use crate::report::End;
use crate::script::{Event, Script};
use crate::world::World;

/// Runs a script to its end; `see` is called after each event.
pub fn run(script: &Script, mut see: impl FnMut(&World, Event)) -> End {
    let mut world = World::new(script);
    let mut last_ports = vec![0; script.wiring.switches.len()];
    loop {
        if let Some(end) = End::of(&world) {
            return end;
        }
        for (switch, last_port) in last_ports.iter_mut().enumerate() {
            while let Some(event) = worker_event(&world, switch, *last_port) {
                if let Event::Take(_, port) = event {
                    *last_port = port;
                }
                world.step(event);
                see(&world, event);
            }
        }
        while let Some(event) = driver_event(&world).filter(|_| world.outcome().is_none()) {
            world.step(event);
            see(&world, event);
        }
    }
}

/// What the worker of a switch does next, which took a frame from this port last.
fn worker_event(world: &World, switch: usize, last_port: u8) -> Option<Event> {
    if world.is_hand_full(switch) {
        return Some(Event::Handle(switch));
    }
    if world.is_barred() {
        return None;
    }
    if world.switches[switch].load_due {
        return Some(Event::Load(switch));
    }
    if world.command_due() == Some(Event::Restart(switch)) {
        return Some(Event::Restart(switch));
    }
    if world.is_clock_due(switch) {
        return Some(Event::Clock(switch));
    }
    let mut ports = (last_port + 1..=12).chain(1..=last_port);
    ports.find(|&port| world.has_frame(switch, port)).map(|port| Event::Take(switch, port))
}

/// What the driver does next.
fn driver_event(world: &World) -> Option<Event> {
    if world.is_barred() {
        return None;
    }
    match world.command_due() {
        Some(command) if !matches!(command, Event::Restart(_)) => Some(command),
        _ => match world.first_packet() {
            Some(packet) => Some(Event::Move(packet)),
            None => world.is_tick_due().then_some(Event::Tick),
        },
    }
}
