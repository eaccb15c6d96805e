//! A program as one writes it against netlink-packet-route, netlink-proto and tokio: it shows links with what their
//! kinds say, makes a veth pair, a bridge and a vlan, and takes them away. A comment stands at each line that had to
//! change.
//!
//!     unshare -rn cargo run --example moved
use futures::{Stream, StreamExt};
use linkwire::link::{InfoBridge, InfoData, InfoKind, InfoVeth, InfoVlan, LinkAttribute}; // netlink_packet_route::link
use linkwire::link::{LinkFlags, LinkInfo, LinkMessage, State, VlanProtocol}; // netlink_packet_route::link
use linkwire::typed::LinkInfos; // new: it reads `LinkInfo`, which keeps its data
use linkwire_netlink::RouteLink; // netlink_packet_route::RouteNetlinkMessage
use netlink_packet_core::{
    NLM_F_ACK, NLM_F_CREATE, NLM_F_DUMP, NLM_F_EXCL, NLM_F_REQUEST, NetlinkMessage, NetlinkPayload,
};
use netlink_proto::ConnectionHandle;
use netlink_proto::sys::{SocketAddr, protocols::NETLINK_ROUTE};
use std::error::Error;

type Handle = ConnectionHandle<RouteLink>; // RouteNetlinkMessage

const KERNEL: fn() -> SocketAddr = || SocketAddr::new(0, 0);

/// Sends a message, and gives the links of the answer.
async fn ask(handle: &mut Handle, message: RouteLink, flags: u16) -> Result<Vec<LinkMessage>, Box<dyn Error>> {
    let mut packet = NetlinkMessage::from(message);
    packet.header.flags = NLM_F_REQUEST | flags;
    let answer = handle.request(packet, KERNEL())?;
    links(answer).await
}

async fn links(
    mut answer: impl Stream<Item = NetlinkMessage<RouteLink>> + Unpin, // RouteNetlinkMessage
) -> Result<Vec<LinkMessage>, Box<dyn Error>> {
    let mut found = Vec::new();
    while let Some(packet) = answer.next().await {
        match packet.payload {
            NetlinkPayload::InnerMessage(message) => match message.lenient() {
                RouteLink::NewLink(link) => found.push(link), // RouteNetlinkMessage
                other => println!("{other:?}"),
            }, // lenient() is new: a link with an alias in Latin-1 was dropped
            NetlinkPayload::Error(error) => return Err(error.to_io().into()),
            _ => (),
        }
    }
    Ok(found)
}

#[derive(Debug, Default)]
struct Interface {
    index: u32,
    name: String,
    mtu: Option<u32>,
    state: Option<State>,
    kind: Option<InfoKind>,
    vlan_id: Option<u16>,
    forward_delay: Option<u32>,
}

impl From<&LinkMessage> for Interface {
    fn from(link: &LinkMessage) -> Interface {
        let mut it = Interface { index: link.header.index, ..Interface::default() };
        for attribute in &link.attributes {
            match attribute {
                LinkAttribute::IfName(name) => it.name = name.clone(),
                LinkAttribute::Mtu(mtu) => it.mtu = Some(*mtu),
                LinkAttribute::OperState(state) => it.state = Some(*state),
                LinkAttribute::LinkInfo(list) => it.read(list),
                _ => (),
            }
        }
        it
    }
}

impl Interface {
    fn read(&mut self, list: &[LinkInfo]) {
        self.kind = list.info_kind(); // was an arm `LinkInfo::Kind(kind)`, of an InfoKind
        match list.info_data() {
            Some(Ok(InfoData::Vlan(data))) => self.vlan(&data), // was `LinkInfo::Data(InfoData::Vlan(data))`
            Some(Ok(InfoData::Bridge(data))) => self.bridge(&data), // was `LinkInfo::Data(InfoData::Bridge(data))`
            _ => (),
        }
    }

    fn vlan(&mut self, data: &[InfoVlan]) {
        for one in data {
            if let InfoVlan::Id(id) = one {
                self.vlan_id = Some(*id);
            }
        }
    }

    fn bridge(&mut self, data: &[InfoBridge]) {
        for one in data {
            if let InfoBridge::ForwardDelay(delay) = one {
                self.forward_delay = Some(*delay);
            }
        }
    }
}

async fn interfaces(handle: &mut Handle) -> Result<Vec<Interface>, Box<dyn Error>> {
    let all = ask(handle, RouteLink::GetLink(LinkMessage::default()), NLM_F_DUMP).await?; // RouteNetlinkMessage
    Ok(all.iter().map(Interface::from).collect())
}

/// A new link of a kind, with its data and what else it has.
async fn add(
    handle: &mut Handle,
    name: &str,
    info: Vec<LinkInfo>,
    more: Vec<LinkAttribute>,
) -> Result<(), Box<dyn Error>> {
    let mut link = LinkMessage::default();
    link.attributes.push(LinkAttribute::IfName(name.to_string()));
    link.attributes.push(LinkAttribute::LinkInfo(info));
    link.attributes.extend(more);
    ask(handle, RouteLink::NewLink(link), NLM_F_ACK | NLM_F_CREATE | NLM_F_EXCL).await?; // RouteNetlinkMessage
    Ok(())
}

async fn change(handle: &mut Handle, index: u32, up: bool, mtu: u32) -> Result<(), Box<dyn Error>> {
    let mut link = LinkMessage::default();
    link.header.index = index;
    link.header.flags = if up { LinkFlags::Up } else { LinkFlags::empty() };
    link.header.change_mask = LinkFlags::Up;
    link.attributes.push(LinkAttribute::Mtu(mtu));
    ask(handle, RouteLink::SetLink(link), NLM_F_ACK).await?; // RouteNetlinkMessage
    Ok(())
}

async fn delete(handle: &mut Handle, index: u32) -> Result<(), Box<dyn Error>> {
    let mut link = LinkMessage::default();
    link.header.index = index;
    ask(handle, RouteLink::DelLink(link), NLM_F_ACK).await?; // RouteNetlinkMessage
    Ok(())
}

#[tokio::main(flavor = "current_thread")]
async fn main() -> Result<(), Box<dyn Error>> {
    let (connection, mut handle, _events) = netlink_proto::new_connection(NETLINK_ROUTE)?;
    tokio::spawn(connection);
    let mut peer = LinkMessage::default();
    peer.attributes.push(LinkAttribute::IfName("v1".to_string()));
    let veth = InfoData::Veth(vec![InfoVeth::Peer(peer)]); // was an InfoVeth, without a list
    let info = vec![LinkInfo::from(InfoKind::Veth), LinkInfo::from(veth)]; // was LinkInfo::Kind(..), LinkInfo::Data(..)
    add(&mut handle, "v0", info, Vec::new()).await?;
    let all = interfaces(&mut handle).await?;
    let v0 = all.iter().find(|it| it.name == "v0").map_or(0, |it| it.index);
    change(&mut handle, v0, true, 1400).await?;

    let bridge = InfoData::Bridge(vec![InfoBridge::ForwardDelay(400)]);
    let info = vec![LinkInfo::from(InfoKind::Bridge), LinkInfo::from(bridge)]; // the same
    if let Err(error) = add(&mut handle, "br7", info, Vec::new()).await {
        println!("no bridge here: {error}");
    }
    let vlan = InfoData::Vlan(vec![InfoVlan::Id(10), InfoVlan::Protocol(VlanProtocol::Ieee8021Q)]);
    let info = vec![LinkInfo::from(InfoKind::Vlan), LinkInfo::from(vlan)]; // the same
    if let Err(error) = add(&mut handle, "v0.10", info, vec![LinkAttribute::Link(v0)]).await {
        println!("no vlan here: {error}");
    }
    for interface in interfaces(&mut handle).await? {
        println!("{interface:?}");
        if interface.name != "lo" && interface.kind.is_some() && interface.name != "v1" {
            delete(&mut handle, interface.index).await?;
        }
    }
    println!("links left: {}", interfaces(&mut handle).await?.len());
    Ok(())
}
