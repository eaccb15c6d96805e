//! A dump, and then what changes, until nothing comes for a second and a half: by netlink-proto and tokio.
//!
//!     unshare -rn cargo run --example watch
use futures::StreamExt;
use linkwire::request;
use linkwire::{LinkAttribute, LinkMessage};
use linkwire_netlink::RouteLink;
use netlink_packet_core::NetlinkPayload;
use netlink_proto::sys::{AsyncSocket, SocketAddr, protocols::NETLINK_ROUTE};
use std::time::Duration;

fn line(link: &LinkMessage) -> String {
    let name = link.attributes.iter().find_map(|it| match it {
        LinkAttribute::IfName(name) => Some(name.as_str()),
        _ => None,
    });
    format!("{}: {} <{}>", link.header.index, name.unwrap_or("?"), link.header.flags)
}

/// A line of a link, also where an attribute of it is refused.
fn tell(word: &str, message: RouteLink) {
    match message.lenient() {
        RouteLink::NewLink(link) => println!("{word} {}", line(&link)),
        RouteLink::DelLink(link) => println!("gone  {}", line(&link)),
        other => println!("{other:?}"),
    }
}

#[tokio::main(flavor = "current_thread")]
async fn main() -> Result<(), Box<dyn std::error::Error>> {
    let (mut connection, mut handle, mut events) = netlink_proto::new_connection(NETLINK_ROUTE)?;
    connection.socket_mut().socket_mut().bind(&SocketAddr::new(0, 1))?; // RTMGRP_LINK
    tokio::spawn(connection);
    let mut answer = handle.request(RouteLink::packet(request::dump(&[]))?, SocketAddr::new(0, 0))?;
    while let Some(packet) = answer.next().await {
        match packet.payload {
            NetlinkPayload::InnerMessage(message) => tell("there", message),
            other => println!("{other:?}"),
        }
    }
    while let Ok(Some((packet, _))) = tokio::time::timeout(Duration::from_millis(1500), events.next()).await {
        match packet.payload {
            NetlinkPayload::InnerMessage(message) => tell("new  ", message),
            other => println!("{other:?}"),
        }
    }
    Ok(())
}
