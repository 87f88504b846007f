//! Tori and meshes, with tables by dimension order.

use crate::gen::{attach_hosts, switches};
use crate::model::Fabric;

/// How many axes a torus has.
pub const AXES: usize = 3;

/// A torus with so many hosts at each switch. The routes of a mesh leave out the links between the ends of an axis.
pub fn torus(sizes: [usize; AXES], hosts: usize, is_mesh: bool) -> Fabric {
    let torus = Torus(sizes);
    let count: usize = sizes.iter().product();
    let mut fabric = Fabric::new(switches(count, 2 * AXES + hosts));
    for switch in 0..count {
        torus.link(&mut fabric, switch);
    }
    attach_hosts(&mut fabric, count, hosts, 2 * AXES + 1);
    fabric.make_tables();
    let own = (0..count).map(|switch| (switch + 1, switch, 0));
    let of_hosts = fabric.hosts.iter().map(|host| (usize::from(host.lid), host.switch, host.port));
    let targets: Vec<_> = own.chain(of_hosts).collect();
    let places: Vec<_> = (0..count).map(|switch| torus.place(switch)).collect();
    for (lid, target, port) in targets {
        for (switch, &place) in places.iter().enumerate() {
            let exit = torus.exit(is_mesh, place, places[target]);
            fabric.set(switch, lid, exit.unwrap_or(port));
        }
    }
    fabric
}

/// A torus of these sizes. Each axis has two ports, up and down.
#[derive(Clone, Copy)]
pub struct Torus(pub [usize; AXES]);

impl Torus {
    /// The place of a switch along each axis.
    fn place(self, switch: usize) -> [usize; AXES] {
        let Torus([_, y, z]) = self;
        [switch / (y * z), switch / z % y, switch % z]
    }

    /// The switch at a place.
    fn switch(self, place: [usize; AXES]) -> usize {
        let Torus([_, y, z]) = self;
        (place[0] * y + place[1]) * z + place[2]
    }

    /// Whether the shorter way along an axis goes up.
    fn is_up(self, axis: usize, from: usize, to: usize) -> bool {
        let size = self.0[axis];
        2 * ((to + size - from) % size) <= size
    }

    /// For each axis a bit: whether the shorter way from a switch to another one crosses its ends.
    pub fn crossed(self, from: usize, to: usize) -> usize {
        let (from, to) = (self.place(from), self.place(to));
        let crosses = |axis: usize| {
            if self.is_up(axis, from[axis], to[axis]) {
                to[axis] < from[axis]
            } else {
                to[axis] > from[axis]
            }
        };
        (0..AXES).map(|axis| usize::from(crosses(axis)) << axis).sum()
    }

    /// Links a switch with those above it.
    fn link(self, fabric: &mut Fabric, switch: usize) {
        for axis in 0..AXES {
            let (size, mut place) = (self.0[axis], self.place(switch));
            // of two switches the lower one links both
            if size > 2 || size == 2 && place[axis] == 0 {
                place[axis] = (place[axis] + 1) % size;
                fabric.link(switch, up(axis), self.switch(place), down(axis));
            }
        }
    }

    /// The port by which a route goes on from a place to another one: along the first axis on which these differ.
    fn exit(self, is_mesh: bool, from: [usize; AXES], to: [usize; AXES]) -> Option<u8> {
        let axis = (0..AXES).find(|&axis| from[axis] != to[axis])?;
        let (from, to) = (from[axis], to[axis]);
        let is_up = if is_mesh { to > from } else { self.is_up(axis, from, to) };
        Some(if is_up { up(axis) } else { down(axis) })
    }
}

/// The port up along an axis.
fn up(axis: usize) -> u8 {
    (2 * axis + 1) as u8
}

/// The port down along an axis.
fn down(axis: usize) -> u8 {
    (2 * axis + 2) as u8
}

/// The axis along which a port leads.
pub fn axis(port: usize) -> Option<usize> {
    (1..=2 * AXES).contains(&port).then(|| (port - 1) / 2)
}
