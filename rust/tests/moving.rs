//! The page on moving: each type that its table has is exported where the table says, and no other is.

macro_rules! names {
    ($($name:ident),* $(,)?) => {
        #[allow(unused_imports)]
        use linkwire::link::{$($name),*};
        const NAMES: &[&str] = &[$(stringify!($name)),*];
    };
}

names! {
    AfSpecBridge, AfSpecInet, AfSpecInet6, AfSpecMctp, AfSpecUnspec, DevlinkPort, DpllPin, Icmp6Stats,
    In6AddrGenMode, Inet6CacheInfo, Inet6DevConf, Inet6IfaceFlags, Inet6Stats, InetDevConf, LinkAttribute,
    LinkEvent, LinkExtentMask, LinkFlags, LinkHeader, LinkInfo, LinkLayerType, LinkMessage, LinkMode,
    LinkPhysId, LinkProtoInfoBridge, LinkProtoInfoInet6, LinkProtocolDownReason, LinkVfInfo, LinkVfPort,
    LinkXdp, Map, MctpPhysBinding, Prop, State, Stats, Stats64, VfInfo, VfInfoBroadcast, VfInfoGuid,
    VfInfoLinkState, VfInfoMac, VfInfoRate, VfInfoRssQueryEn, VfInfoSpoofCheck, VfInfoTrust, VfInfoTxRate,
    VfInfoVlan, VfLinkState, VfPort, VfStats, VfVlan, VfVlanInfo, VlanProtocol, WirelessEvent, XdpAttached,
}

#[test]
fn table() {
    let page = include_str!("../MOVING.md");
    let kinds = ["enum", "struct", "flag set"];
    let is_type =
        |row: &&str| kinds.iter().any(|kind| row.split(" | ").nth(1).map_or(false, |it| it.starts_with(kind)));
    let has_three = |row: &&str| row.split(" | ").count() == 3;
    let rows: Vec<&str> = page.lines().filter(|it| it.starts_with("| `")).filter(has_three).filter(is_type).collect();
    let found: Vec<&str> = rows.iter().filter_map(|row| row.split('`').nth(1)).collect();
    assert_eq!(found, NAMES);
}

mod buffers {
    names! {
        Icmp6StatsBuffer, Inet6CacheInfoBuffer, Inet6DevConfBuffer, Inet6StatsBuffer, InetDevConfBuffer,
        LinkMessageBuffer, MapBuffer, Stats64Buffer, StatsBuffer, VfInfoBroadcastBuffer, VfInfoGuidBuffer,
        VfInfoLinkStateBuffer, VfInfoMacBuffer, VfInfoRateBuffer, VfInfoRssQueryEnBuffer, VfInfoSpoofCheckBuffer,
        VfInfoTrustBuffer, VfInfoTxRateBuffer, VfInfoVlanBuffer,
    }

    /// The sentence that names them, and no name besides: all that the module exports there stand on the page.
    #[test]
    fn sentence() {
        let page = include_str!("../MOVING.md");
        let words = page.split("are no views of memory:").nth(1).unwrap().split("have `From`").next().unwrap();
        let found: Vec<&str> = words.split('`').skip(1).step_by(2).collect();
        assert_eq!(found, NAMES);
        assert_eq!(super::NAMES.len() + found.len() + super::typed::TYPED.len(), 183);
    }
}

mod typed {
    macro_rules! typed {
        ($($name:ident),* $(,)?) => {
            #[allow(unused_imports)]
            use linkwire::typed::{$($name as _),*};
            #[allow(unused_imports)]
            use linkwire::link::{$($name),*};
            pub const TYPED: &[&str] = &[$(stringify!($name)),*];
        };
    }

    typed! {
        AmtMode, BondAdInfo, BondAdSelect, BondAllPortActive, BondArpAllTargets, BondArpValidate,
        BondFailOverMac, BondLacpRate, BondMode, BondPortState, BondPrimaryReselect,
        BondXmitHashPolicy, BridgeBooleanOptionFlags, BridgeBooleanOptions, BridgeFlag, BridgeId,
        BridgeIdBuffer, BridgeMode, BridgeMulticastRouterType, BridgePortState, BridgeQuerierState,
        BridgeStpMode, BridgeStpState, BridgeVlanInfo, BridgeVlanInfoFlags, BridgeVlanTunnelInfo,
        CanBerrCounter, CanBitTiming, CanBitTimingConst, CanClock, CanCtrlMode, CanCtrlModeExt,
        CanCtrlModeFlags, CanTdc, ChurnState, ErSpanDir, GeneveDf, GreEncapFlags, GreEncapType,
        GreIOFlags, GtpRole, HsrProtocol, InfoAmt, InfoBareUdp, InfoBatAdv, InfoBond, InfoBondPort,
        InfoBridge, InfoBridgePort, InfoCan, InfoData, InfoDsa, InfoGeneve, InfoGre, InfoGre6,
        InfoGtp, InfoHsr, InfoIpTunnel, InfoIpVlan, InfoIpVtap, InfoIpoib, InfoKind, InfoMacSec,
        InfoMacVlan, InfoMacVtap, InfoNetkit, InfoPortData, InfoPortKind, InfoRmNet, InfoRmNetFlags,
        InfoTeamPort, InfoTun, InfoVeth, InfoVlan, InfoVrf, InfoVrfPort, InfoVti, InfoVxcan,
        InfoVxlan, InfoWireguard, InfoWwan, InfoXfrm, Ip6TunnelFlags, IpVlanFlags, IpVlanMode,
        IpVtapFlags, IpVtapMode, IpoibMode, LacpState, LinkXstats, MacSecCipherId, MacSecOffload,
        MacSecValidate, MacVlanFlags, MacVlanMacAddressMode, MacVlanMode, MacVtapFlags,
        MacVtapMacAddressMode, MacVtapMode, MiiStatus, NetkitMode, NetkitPolicy, NetkitScrub,
        RmNetFlags, TunnelEncapFlags, TunnelEncapType, VlanFlags, VlanQosMapping, VxlanDf,
    }
}

#[test]
fn typed_table() {
    let page = include_str!("../MOVING.md");
    let table = page.split("| name | here |").nth(1).unwrap();
    let rows = table.lines().skip(2).take_while(|it| it.starts_with("| `"));
    let found: Vec<&str> = rows.filter_map(|row| row.split('`').nth(1)).collect();
    assert_eq!(found, typed::TYPED);
}
