//! `expect`: trees, numbers and tables of a network with all links up.

use crate::ports::Ports;
use crate::routes::{Graph, Table};
use crate::script::Script;
use crate::text::push_number;
use crate::wiring::{components, numbers, Member};

pub fn expect_text(script: &Script) -> Vec<u8> {
    let wiring = &script.wiring;
    let name = |switch: usize| wiring.switches[switch].name.as_str();
    let mut out = Vec::new();
    for members in components(wiring) {
        push(&mut out, &["component ", name(members[0].switch), " members "]);
        push_number(&mut out, members.len() as u64);
        out.push(b'\n');
        for member in &members {
            push_member(&mut out, member, &name);
        }
        let proposed: Vec<u8> = members.iter().map(|member| wiring.switches[member.switch].had).collect();
        let numbers = numbers(&proposed);
        for (member, &number) in members.iter().zip(&numbers) {
            push(&mut out, &["number ", name(member.switch), " "]);
            push_number(&mut out, u64::from(number));
            out.push(b'\n');
        }
        let (graph, nodes) = Graph::of_component(wiring, &members, &numbers);
        let tables = Table::all(&graph, script.any_routes);
        let numbers: Vec<u8> = nodes.iter().map(|node| node.number).collect();
        let mut place = vec![0; wiring.switches.len()];
        for (at, node) in nodes.iter().enumerate() {
            place[node.switch] = at;
        }
        for member in &members {
            let at = place[member.switch];
            push_rows(&mut out, name(member.switch), &numbers, numbers[at], &tables[at]);
        }
    }
    out.extend_from_slice(b"end\n");
    out
}

fn push(out: &mut Vec<u8>, texts: &[&str]) {
    for text in texts {
        out.extend_from_slice(text.as_bytes());
    }
}

fn push_member<'a>(out: &mut Vec<u8>, member: &Member, name: &impl Fn(usize) -> &'a str) {
    push(out, &["member ", name(member.switch), " level "]);
    push_number(out, member.level as u64);
    if let Some((parent, port)) = member.parent {
        push(out, &[" parent ", name(parent), " port "]);
        push_number(out, u64::from(port));
    }
    out.push(b'\n');
}

/// The `row` lines of the switch with a number. All entries by which things come downward have the same rows, and so
/// have all others.
pub fn push_rows(out: &mut Vec<u8>, name: &str, numbers: &[u8], own: u8, table: &Table) {
    let texts = [false, true].map(|came_down| row_text(numbers, own, table.rows(came_down)));
    for entry in table.entries() {
        push(out, &["row ", name, " "]);
        push_number(out, u64::from(entry));
        out.extend_from_slice(&texts[usize::from(table.came_down(entry))]);
        out.push(b'\n');
    }
}

/// The exits to each number but the own.
fn row_text(numbers: &[u8], own: u8, rows: &[Ports]) -> Vec<u8> {
    let mut text = Vec::new();
    for (&number, &exits) in numbers.iter().zip(rows).filter(|&(&number, _)| number != own) {
        text.push(b' ');
        push_number(&mut text, u64::from(number));
        let mut before = b':';
        for port in exits {
            text.push(before);
            push_number(&mut text, u64::from(port));
            before = b'/';
        }
        if exits.is_empty() {
            text.extend_from_slice(b":-");
        }
    }
    text
}
