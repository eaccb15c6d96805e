"""Compares what the package says of messages with what pyroute2 says of the same ones.

    python3 tests/python/beside.py [FILE..]

FILE has lines of hexadecimal, as tests/kernels/messages.txt has, which is read without one, in a folder of the
kernel's release; `live` are the links of the running kernel, and `made` too, after some were made. Each value that both
have, at one path of names, is compared. The paths where they differ stand in the tables below, with why, and in
docs/PYTHON.md: by names, by how a value is written, where pyroute2 is wrong by the kernel, and where the package is.
Another one makes the status 1.
"""

import os
import re
import struct
import subprocess
import sys
import warnings
from collections import Counter, defaultdict

import linkwire

TOP = os.path.dirname(os.path.dirname(os.path.dirname(os.path.abspath(__file__))))
PREFIX = re.compile(r"IFLA_(?:BRPORT|BR|BOND_SLAVE|BOND_AD_INFO|BOND|VXLAN|VLAN_QOS|VLAN|MACVLAN|IPVLAN|MACVTAP|GRE|"
                    r"IPTUN|VTI|GENEVE|INFO|INET6?|XDP|VRF_PORT|VRF|VF|PPP|TUN|HSR|XFRM|CAN|PORT|IP6GRE|IP6TNL|IPIP|"
                    r"SIT|GTP|PROTO_DOWN_REASON)_|IFLA_|AF_")
PLACE = re.compile(r"\.\d+(?![^.])")
# paths where they differ: by names, which pyroute2 has as numbers; by how a value is written; by the value
NUMBERS = r"""
ifi-flags|linkmode|event|ext-mask|xdp\.attached|protinfo\.state|linkinfo\.slave-data\.(?:mii-status|state)
|af-spec\.(?:flags|mode|vlan-info\.\d+\.flags|inet6\.addr-gen-mode|inet6\.flags)|linkinfo\.data\.flag\.(?:flags|mask)
|linkinfo\.data\.(?:ad-lacp-rate|ad-select|arp-all-targets|arp-validate|df|encap-flags|encap-type|fail-over-mac|flags
|iflags|mode|oflags|primary-reselect|protocol|type|vlan-protocol|xmit-hash-policy)
|vfinfo-list\.info\.\d+\.link-state\.link-state"""
WRITTEN = r"phys-port-id|phys-switch-id|af-spec\.inet6\.token|vfinfo-list\.info\.\d+\.ib-(?:node|port)-guid\.guid"
WRONG = {
    r"address|broadcast": "an address of another length than six bytes, of which pyroute2 reads six",
    r".*\.(?:bridge-id|root-id)\.prio": "struct ifla_bridge_id of linux/if_link.h has it in network order",
    r"af-spec\.inet6\.conf\.(?:accept-dad|rtr-solicits|use-tempaddr)": "an __s32 of struct ipv6_devconf: it can be -1",
    r"af-spec\.inet6\.stats\..*": "the order of linux/snmp.h changed before Linux 6.16",
    r"linkinfo\.data\.ttl-inherit": "vxlan_fill_info writes a byte, and 0 is no",
    r"new-netnsid": "rtnl_fill_ifinfo writes it in host order",
    r"xdp\.flags": "rtnl_xdp_policy has it in host order",
}
OURS = {
    r"vfinfo-list\.info\.\d+\.(?:rss-query-en|spoofchk|trust)\.setting":
        "-1 where the driver does not say (rtnl_fill_vfinfo), which the package has as 0",
    r"vfinfo-list\.info\.\d+\.vlan-list\.info\.\d+\.vlan-proto": "8021q by name, also where it is 0",
}

LINKS = """link set lo up
link add br0 type bridge
link add v0 type veth peer name v1
link add x0 type vxlan id 7 remote 192.0.2.1 dstport 4789
link set v0 master br0
link set br0 up
link set v0 up
link set v1 up
"""

# other names of the same thing, after prefixes
NAMES = [(re.compile(pattern), name) for pattern, name in (
    (r"^(index|family|change|flags)$", r"ifi-\1"), (r"^if-netnsid$", "target-netnsid"),
    (r"^af-spec\.inet\.(?!conf)", "af-spec.inet.conf."), (r"\.icmp6stats\b", ".icmp6-stats"),
    (r"(\.ect[01])pkts$", r"\1-pkts"), (r"\.conf\.hop-limit$", ".conf.hoplimit"),
    (r"\.inet6\.conf\.mtu$", ".inet6.conf.mtu6"), (r"\.router-probe-", ".rtr-probe-"),
    (r"\.router-solicitation-", ".rtr-solicit-"), (r"\.router-solicitations$", ".rtr-solicits"),
    (r"\.temp-preferred-lft$", ".temp-prefered-lft"), (r"\.nf-call-ip6tables$", ".nf-call-ip6-tables"),
    (r"^af-spec\.bridge-vlan-info\b", "af-spec.vlan-info"), (r"^af-spec\.bridge-(?:vlan-)?", "af-spec."),
    (r"^(vfinfo-list\..*)\.vlan-info\b", r"\1.info"),
    (r"^(vfinfo-list\..*\.info\.\d+\.)proto$", r"\1vlan-proto"),
    (r"^(vfinfo-list\..*\.(?:rss-query-en|spoofchk|trust))\.[-a-z]+(?<!\.vf)$", r"\1.setting"),
    (r"^(vfinfo-list\..*\.)stats-", r"\1"), (r"^(vfinfo-list\..*)\.tx-rate\.tx-rate$", r"\1.tx-rate.rate"),
    (r"^(vfinfo-list\..*\.)ib-(?:node|port)-guid$", r"\1guid"))]
# attributes that stand in a list as often as there is something; one does so in this one alone
MANY = "IFLA_VF_INFO", "IFLA_VF_VLAN_INFO", "IFLA_ALT_IFNAME", "IFLA_BRIDGE_VLAN_INFO", "IFLA_VLAN_QOS_MAPPING"
MANY_IN = "IFLA_MACVLAN_MACADDR_DATA", "IFLA_MACVLAN_MACADDR"


def plain(value, around=""):
    """The values of pyroute2 as dicts by name, of one that comes twice the last, and of a list all."""
    if not (hasattr(value, "get") and "attrs" in value):
        return value
    found = {key: it for key, it in value.items() if key not in ("attrs", "header", "event", "state", "__align")}
    for name, *rest in value["attrs"]:
        if name in MANY or (around, name) == MANY_IN:
            found.setdefault(name, []).append(plain(rest[0], name))
        elif name != "UNKNOWN":
            found[name] = plain(rest[0], name)
    return found


def normal(name):
    return PREFIX.sub("", str(name), count=1).lower().replace("_", "-")


def leaves(value, path=()):
    """Paths and values, in names as linkshow has them."""
    if isinstance(value, dict):
        for name, inner in value.items():
            yield from leaves(inner, (*path, normal(name)))
    elif isinstance(value, list) and (normal("IFLA_ALT_IFNAME") in path or any(isinstance(it, dict) for it in value)):
        for at, inner in enumerate(value):
            yield from leaves(inner, (*path, str(at)))
    else:
        yield ".".join(path), value


def of_pyroute2(message):
    from pyroute2.netlink.rtnl.ifinfmsg import ifinfmsg

    found = ifinfmsg(struct.pack("=IHHII", 16 + len(message), 16, 0, 1, 0) + message)
    found.decode()
    values = {}
    for path, value in leaves(plain(found)):
        for pattern, name in NAMES:
            path = pattern.sub(name, path)
        values[path] = value
    if values.get("linkinfo.kind") == "vlan":
        values = {path.replace(".data.flags.", ".data.flag."): value for path, value in values.items()}
    return values


def is_same(own, other):
    if isinstance(own, str) and isinstance(other, str):
        return own.lower() == other.lower()
    return own == other


def messages(names):
    for name in names:
        if name == "made":
            subprocess.run(["ip", "-batch", "-"], input=LINKS, text=True, check=True, timeout=60)
        if name in ("live", "made"):
            with linkwire.Links() as links:
                yield from ((it, os.uname().release) for it in links.dump())
            continue
        kernel = (re.findall(r"(\d+\.\d+\.\d+)/", name) or [None])[0]
        with open(name, encoding="utf-8") as it:
            for line in it:
                found = re.match(r"# (\d+\.\d+\.\d+):", line)
                kernel = found[1] if found else kernel
                if re.fullmatch(r"(?:[0-9a-f]{2})+\n?", line):
                    yield bytes.fromhex(line), kernel


def main():
    warnings.simplefilter("ignore")
    try:
        of_pyroute2(bytes(16))
    except ImportError as error:
        print(f"python: skipped: beside pyroute2: {error}")
        return 0
    counts, differ, named = Counter(), defaultdict(list), defaultdict(set)
    for message, kernel in messages(sys.argv[1:] or [f"{TOP}/tests/kernels/messages.txt"]):
        own = dict(leaves(linkwire.show(message, kernel, lenient=True)))
        if "fault" in own:
            counts["refused"] += 1
            continue
        counts["messages"] += 1
        try:
            other = of_pyroute2(message)
        except Exception as error:  # of whatever sort: pyroute2 has no words for it
            print(f"beside: not decoded by pyroute2: {own.get('ifname')}: {type(error).__name__}")
            continue
        for path in own.keys() & other.keys():
            if is_same(own[path], other[path]):
                counts["alike"] += 1
            else:
                differ[path].append((own[path], other[path]))
                of = PLACE.sub("", path), own.get("linkinfo.kind"), own.get("linkinfo.slave-kind")
                named[of].add((str(own[path]), str(other[path])))
    kinds = Counter()
    for path, pairs in sorted(differ.items()):
        kind = kind_of(path)
        kinds[kind] += len(pairs)
        if kind == "unknown" or os.environ.get("SHOW"):
            print(f"beside: {kind}: {path}: {len(pairs)}: {str(pairs[0][0])[:60]} and {str(pairs[0][1])[:60]}")
    print(f"python: beside pyroute2: {counts['messages']} messages, {counts['alike']} values alike, others on "
          f"{len(differ)} paths: " + ", ".join(f"{kinds[it]} {it}" for it in KINDS))
    names = {PLACE.sub("", path) for path in differ if kind_of(path) == "names"}
    wrong = [of for of, pairs in named.items() if of[0] in names and not are_names(pairs)]
    for of in wrong:
        print(f"beside: a number has two names, or two have one: {of}: {sorted(named[of])}")
    return 1 if wrong or kinds["unknown"] else 0


def are_names(pairs):
    """Whether each number has a name of its own."""
    return len({name for name, _ in pairs}) == len(pairs) == len({number for _, number in pairs})


KINDS = {"names": [NUMBERS.replace("\n", "")], "written": [WRITTEN], "wrong": WRONG, "ours": OURS, "unknown": [".*"]}


def kind_of(path):
    return next(kind for kind, patterns in KINDS.items() if any(re.fullmatch(it, path) for it in patterns))


if __name__ == "__main__":
    sys.exit(main())
