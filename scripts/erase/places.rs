//! The types of the tables: of each place its attributes, and what they hold.

use super::{Typed, parts};
use crate::link_info::tables::{bond, bridge, can, family, geneve, gre, macsec, macvlan, others, tunnel, vlan, vxlan};
use crate::link_info::{Plain, Row, Size, Style};
use crate::link_msg::LinkMessage;
use crate::nla_wire::{DecodeError, DefaultNla};
use crate::packet::{Nla, NlaBuffer, Parseable};
use crate::rattle::net::{Ipv4Addr, Ipv6Addr};
use alloc::string::String;
use alloc::vec::Vec;
use core::fmt;

// BatAdv: The data of a batman-adv interface.
const BATADV: &[Row] = &[Row(1, "algo-name", Style::Text)];

// Dsa: The data of a port of a switch.
const DSA: &[Row] = &[Row(1, "conduit", Style::Plain(Plain::Unsigned(Size::Four)))];

// Ipoib: The data of an IPoIB interface.
const IPOIB: &[Row] = &[
    Row(1, "pkey", Style::Plain(Plain::Unsigned(Size::Two))),
    Row(2, "mode", Style::Plain(Plain::Named(Size::Two, &[(0, "datagram"), (1, "connected")]))),
    Row(3, "umcast", Style::Plain(Plain::Unsigned(Size::Two))),
];

// Wireguard: The data of a wireguard interface, of which kernels send none.
const WIREGUARD: &[Row] = &[];

// TeamPort: The data of a port of a team, of which kernels send none.
const TEAMPORT: &[Row] = &[];
