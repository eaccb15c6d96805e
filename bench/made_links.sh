#!/usr/bin/env bash
# Dumps the kernel's links into a file, as lines of hexadecimal by out/linkdump, and after them those of a namespace in
# which a few of each kind are made: made_links.sh FILE
. "$(dirname "$0")/../scripts/common.sh"

dumps() {
    "$top/out/linkdump" --plain
}

# Makes one link, or says that the kernel has none of this kind.
make() {
    ip link add "$@" 2>/dev/null || echo "bench: no link made by 'ip link add $*'" >&2
}

if [ -z "$inside" ]; then
    file=$1
    dumps >"$folder/lines"
    unshare --user --map-root-user --net "$itself" --inside "$folder" || unshare --net "$itself" --inside "$folder"
    cat "$folder/lines" "$folder/made" >"$file"
    exit
fi
make dummy0 type dummy
make veth0 type veth peer name veth1
make veth2 type veth peer name veth3
make bridge0 type bridge
make bridge1 type bridge vlan_filtering 1
make ifb0 type ifb
make vlan7 link veth0 type vlan id 7
make macvlan0 link veth0 type macvlan mode bridge
make ipvlan0 link veth2 type ipvlan
make vxlan0 type vxlan id 42 dev veth0 dstport 4789
make bond0 type bond
make vrf0 type vrf table 10
make gretap0 type gretap remote 192.0.2.1 local 192.0.2.2
ip link set veth1 master bridge0 2>/dev/null || true
ip link set veth3 master bridge1 2>/dev/null || true
for link in lo dummy0 veth0 veth1 veth2 bridge0 vlan7; do
    ip link set "$link" up 2>/dev/null || true
done
ip link property add dev veth0 altname a-longer-name-of-the-first-pair 2>/dev/null || true
sleep 0.2
dumps >"$folder/made"
