//! Tells each change of an interface as it happens, until so many were told: `watch [CHANGES]`.

mod socket;

use linkwire::request::{RTM_DELLINK, RTM_NEWLINK};
use linkwire::{LinkAttribute, LinkMessage, state_lenient};
use socket::Socket;
use std::collections::HashMap;

fn name(link: &LinkMessage) -> &str {
    let name = link.attributes.iter().find_map(|it| match it {
        LinkAttribute::IfName(name) => Some(name.as_str()),
        _ => None,
    });
    name.unwrap_or("?")
}

fn main() -> Result<(), Box<dyn std::error::Error>> {
    let most: usize = std::env::args().nth(1).map_or(Ok(usize::MAX), |it| it.parse())?;
    let mut socket = Socket::new(1)?;
    let (mut states, mut told) = (HashMap::new(), 0);
    while told < most {
        for (kind, bytes) in socket.receive()? {
            let (link, state) = (LinkMessage::parse_lenient(&bytes)?, state_lenient(&bytes)?);
            let key = (link.header.index, link.header.interface_family);
            // counters alone are no change: the state encoding leaves them out
            let word = match kind {
                RTM_NEWLINK if states.get(&key) != Some(&state) => "is",
                RTM_DELLINK => "was",
                _ => continue,
            };
            println!("{}: {} {word} {}", link.header.index, name(&link), link.header.flags);
            states.insert(key, state);
            told += 1;
        }
    }
    Ok(())
}
