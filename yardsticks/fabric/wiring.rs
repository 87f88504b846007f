//! A fabric as files tell it, by GUIDs.

use crate::model::{Fabric, Far, Host, Switch};

/// A link between switches, as one of its ends is told.
pub struct Link {
    pub switch: u64,
    pub port: u8,
    pub other: u64,
    pub other_port: u8,
}

/// An end port, and to which port of a switch it is attached.
#[derive(PartialEq, Eq, PartialOrd, Ord)]
pub struct EndPort {
    pub guid: u64,
    /// The port of its node.
    pub number: u8,
    pub switch: u64,
    pub port: u8,
    pub lid: u16,
    pub lmc: u8,
}

/// The fabric of switches, by rising GUIDs, with tables without a port for any LID. An end port is left out if its
/// switch is not there.
pub fn joined(switches: Vec<Switch>, links: &[Link], end_ports: impl IntoIterator<Item = EndPort>) -> Fabric {
    let mut fabric = Fabric::new(switches);
    let places = fabric.places();
    for link in links {
        let (switch, other) = (places[&link.switch], places[&link.other]);
        match fabric.far(switch, link.port) {
            Far::None => fabric.link(switch, link.port, other, link.other_port),
            far => assert!(far == Far::Switch(other as u32, link.other_port)),
        }
    }
    for EndPort { guid, switch, port, lid, lmc, .. } in end_ports {
        if let Some(&switch) = places.get(&switch) {
            fabric.attach(Host { guid, lid, lmc, switch, port });
        }
    }
    fabric.make_tables();
    fabric
}
