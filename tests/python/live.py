"""The package on the running kernel, in a network namespace of its own.

    unshare -n python3 tests/python/live.py

It makes and changes pairs of veth; what the kernel lacks is said to be skipped. The last line is 'live: ok'."""

import asyncio
import errno
import faulthandler
import json
import os
import random
import select
import socket
import subprocess
import sys
import threading
import time
from unittest import mock

import linkwire
from linkwire import numbers

VETH_INFO_PEER = 1  # linux/veth.h
NEW = numbers.NLM_F_CREATE | numbers.NLM_F_EXCL


def ip(*words):
    ran = subprocess.run(["ip", *words], capture_output=True, check=True, timeout=60)
    return ran.stdout.decode(errors="replace")


def batch(lines):
    subprocess.run(["ip", "-batch", "-"], input="\n".join(lines), text=True, check=True, timeout=60)


def names():
    return {it["ifindex"]: it["ifname"] for it in json.loads(ip("-j", "link"))}


def wants(what, found, wanted):
    if found != wanted:
        sys.exit(f"live: {what}: {found!r} and not {wanted!r}")


def name_of(message):
    return next(linkwire.text(it.payload) for it in linkwire.attributes(message) if it.number == numbers.IFLA_IFNAME)


def veth(name, peer, **words):
    data = [(VETH_INFO_PEER, linkwire.build([(numbers.IFLA_IFNAME, peer)]))]
    return linkwire.build([(numbers.IFLA_IFNAME, name), (numbers.IFLA_LINKINFO, [
        (numbers.IFLA_INFO_KIND, "veth"), (numbers.IFLA_INFO_DATA, data)])], **words)


def requests(links):
    """Links are made, changed and read; what is refused has the kernel's own text."""
    links.send(veth("one0", "one1"), flags=NEW)
    links.send(linkwire.build([(numbers.IFLA_MTU, linkwire.u32(1400))], index=links_by_name()["one0"]))
    links.send(linkwire.build(index=links_by_name()["one1"], flags=numbers.IFF_UP, change=numbers.IFF_UP))
    found = {it.number: it.payload for it in linkwire.attributes(links.get("one0"))}
    wants("the MTU that was set", linkwire.number(found[numbers.IFLA_MTU]), 1400)
    wants("by index", links.get(index=links_by_name()["one1"])[8] & 1, numbers.IFF_UP)
    wants("by name", name_of(links.get("one1")), "one1")
    links.send(linkwire.build([(numbers.IFLA_PROP_LIST | numbers.NLA_F_NESTED,
                                [(numbers.IFLA_ALT_IFNAME, "other")])], index=links_by_name()["one0"]),
               kind=numbers.RTM_NEWLINKPROP, flags=NEW)
    wants("by another name", json.loads(ip("-j", "link", "show", "other"))[0]["ifname"], "one0")
    long_name = "another-name-that-is-long"
    links.send(linkwire.build([(numbers.IFLA_PROP_LIST | numbers.NLA_F_NESTED,
                                [(numbers.IFLA_ALT_IFNAME, long_name)])], index=links_by_name()["one0"]),
               kind=numbers.RTM_NEWLINKPROP, flags=NEW)
    for name in "one0", "other", long_name:
        wants(f"by the name {name}", (name_of(links.get(name)), links.index(name)), ("one0", links_by_name()["one0"]))
    wants("the name of an index", links.name(links_by_name()["one1"]), "one1")
    links.send(linkwire.build([(numbers.IFLA_ADDRESS, linkwire.mac("02:00:00:00:00:01"))],
                              index=links_by_name()["one1"]))
    wants("an address", linkwire.show(links.get("one1"))["address"], "02:00:00:00:00:01")
    told = []
    long = linkwire.build([(numbers.IFLA_MTU, linkwire.u32(70000))], index=links_by_name()["one0"])
    for message, kind, flags in ((veth("one0", "one1"), numbers.RTM_NEWLINK, NEW),
                                 (linkwire.build(index=4242), numbers.RTM_DELLINK, 0), (long, numbers.RTM_NEWLINK, 0)):
        try:
            links.send(message, kind, flags)
        except linkwire.KernelError as error:
            told.append((error.errno, error.strerror))
    wants("refusals", [number for number, _ in told], [errno.EEXIST, errno.ENODEV, errno.EINVAL])
    wants("the kernel's text", told[2][1], "mtu greater than device maximum")
    links.send(linkwire.build(index=links_by_name()["one0"]), numbers.RTM_DELLINK)
    wants("links that are left", set(links_by_name()) & {"one0", "one1"}, set())
    print(f"live: requests, and refusals: {', '.join(text for _, text in told)}")


def links_by_name():
    return {name: index for index, name in names().items()}


def dumps(links):
    """Dumps while links come and go have all that stay, and are those of `ip`."""
    batch([f"link add stay{it} type veth peer name kept{it}" for it in range(40)])
    end = threading.Event()

    def churn():
        while not end.is_set():
            batch([f"link add churn{it} type veth" for it in range(20)] + [f"link del churn{it}" for it in range(20)])

    thread = threading.Thread(target=churn)
    thread.start()
    try:
        counts = []
        for _ in range(40):
            found = [name_of(it) for it in links.dump()]
            wants("links that stay", sum(it.startswith(("stay", "kept")) for it in found), 80)
            wants("links that are there once", len(set(found)), len(found))
            counts.append(len(found))
    finally:
        end.set()
        thread.join()
    wants("what ip has", {linkwire.show(it)["ifi-index"]: name_of(it) for it in links.dump()}, names())
    wants("dumps with counters", len(links.dump(mask=numbers.RTEXT_FILTER_VF)), len(names()))
    print(f"live: 40 dumps while links come and go, of {min(counts)} to {max(counts)}")
    batch([f"link del stay{it}" for it in range(40)])


def filtered(links):
    """Dumps of a kind, and of what belongs to a link: the kernel leaves out the rest, and what it cannot is left out.
    """
    batch(["link add port0 type veth peer name port1", "link add bridge0 type bridge", "link set port0 master bridge0"])
    bridge, ports = links.index("bridge0"), ["port0"]
    for words, wanted in (({"kind": "bridge"}, ["bridge0"]), ({"kind": "veth"}, ["port1", "port0"]),
                          ({"master": "bridge0"}, ports), ({"master": bridge, "kind": "veth"}, ports),
                          ({"master": bridge, "mask": numbers.RTEXT_FILTER_SKIP_STATS}, ports),
                          ({"kind": "bridge", "master": bridge}, []), ({"kind": "no-such-kind"}, []),
                          ({"family": 7, "master": bridge}, ["bridge0", "port0"])):
        found = [name_of(it) for it in links.dump(**words)]
        wants(f"a dump of {words}", sorted(set(found)), sorted(set(wanted)))
    wants("none of a master", "port0" in map(name_of, links.dump(master=0)), False)
    for words in {"master": "no-such-link"}, {"kind": "veth", "family": 7}:
        try:
            links.dump(**words)
            sys.exit(f"live: a dump of {words}")
        except (linkwire.KernelError, ValueError):
            pass
    asked = []
    it = mock.patch.object(linkwire.netlink.Socket, "receive", lambda own, *flags: asked.append(
        linkwire._sockets.parts_of(own.it.recv(1 << 20))) or asked[-1])
    with it:
        links.dump(kind="bridge")
    wants("what the kernel answers", len([part for parts in asked for part in parts if part.kind == 16]), 1)
    batch(["link del port0", "link del bridge0"])
    print("live: dumps of a kind and of a master")


def monitors(links):
    """A monitor has what is announced from the call on, and says where its queue ran over."""
    with links.monitor() as news:
        ip("link", "add", "news0", "type", "veth", "peer", "name", "news1")
        ip("link", "del", "news0")
        found = []
        while sum(it.is_gone for it in found) < 2:
            found.append(next(news))
    wants("announced", {name_of(it.message) for it in found} >= {"news0", "news1"}, True)
    with links.monitor(queue=1) as news:
        for it in range(200):
            ip("link", "set", "lo", "txqueuelen", str(1000 + it))
            if it % 20 == 0 and is_lost(news):
                break
        else:
            sys.exit("live: a queue of few bytes does not run over")
        while news.ready():  # the kernel puts nothing into a queue that ran over until it is empty
            pass
        ip("link", "set", "lo", "txqueuelen", "999")
        while linkwire.number(next(it.payload for it in linkwire.attributes(next(news).message)
                                   if it.number == numbers.IFLA_TXQLEN)) != 999:
            pass
    wants("a stream that is closed", list(news), [])
    print("live: monitor: from the call on, and what was lost is raised")


def is_lost(news):
    try:
        news.ready()
    except linkwire.LostMessages:
        return True
    return False


def told(events):
    return [(it.change, it.family, it.ifname, *(change.path for change in it.changes)) for it in events]


def until(stream, wanted):
    """The events of a stream up to one that has these paths: the kernel may announce another change with it."""
    found = []
    for event in stream:
        found.append(event)
        (one,) = told([event])
        if one[:3] == wanted[:3] and set(one) >= set(wanted):
            return found
    return found


def watches(links):
    """What `linkdump --monitor | linkdiff` says, as values."""
    with links.watch() as watch:
        there = sorted(told([next(watch) for _ in names()]))
        wants("what is there", there, sorted(("new", 0, it) for it in names().values()))
        ip("link", "add", "watch0", "index", "900", "type", "veth", "peer", "name", "watch1", "index", "901")
        ip("link", "set", "watch0", "mtu", "1400")
        found = until(watch, ("changed", 0, "watch0", "mtu"))
        wants("a link that comes", ("new", 0, "watch0") in told(found), True)
        wants("its MTU", linkwire.Change("mtu", 1500, 1400) in found[-1].changes, True)
        ip("link", "set", "watch0", "name", "named0")
        until(watch, ("changed", 0, "named0", "ifname"))
        ip("link", "set", "lo", "txqueuelen", "7")
        until(watch, ("changed", 0, "lo", "txqlen"))
        ip("link", "del", "named0")
        wants("links that go", {it for it in told(until_idle(watch)) if it[0] == "gone"},
              {("gone", 0, "named0"), ("gone", 0, "watch1")})
    with links.watch(changes_only=True) as watch:
        ip("link", "set", "lo", "txqueuelen", "8")
        wants("changes alone", told([next(watch)])[0][0], "changed")
    print("live: watch: links that come, change, are renamed, and go")


def loses(links):
    """A queue that ran over: an event `lost`, and then what went and came meanwhile."""
    batch(["link add early0 type veth peer name early1", "link add busy0 type veth peer name busy1"])
    with links.watch(queue=1) as watch:
        until(watch, ("new", 0, "busy0"))
        until_idle(watch)
        ip("link", "set", "busy0", "mtu", "1400")
        batch([f"link set lo txqueuelen {1000 + it}" for it in range(500)])
        batch(["link del early0", "link add late0 type veth peer name late1", "link set busy0 txqueuelen 77"])
        found = told(until_idle(watch))
        after = found[found.index(("lost", None, None)) + 1:]
        wants("after messages were lost", {("gone", 0, "early0"), ("gone", 0, "early1"), ("new", 0, "late0"),
                                           ("new", 0, "late1")} <= set(after), True)
    batch(["link del late0", "link del busy0"])
    print("live: watch: sets right by itself what was lost")


def until_idle(watch):
    """What a stream says until it was asked forty times in vain, over .6 seconds or more."""
    found, idle = [], 0
    while idle < 40:
        new = watch.ready()
        found, idle = found + new, 0 if new else idle + 1
        time.sleep(.015)
    return found


def follows(links):
    """What a watch has told at the end is what is there, however fast links come, go and are renamed."""
    chance, lost = random.Random(59), 0
    for queue in 1, 1 << 14, 1 << 22:
        with links.watch(queue=queue) as watch:
            found, told_of = [], {}
            for turn in range(8):
                lines = []
                for it in range(20):
                    name = f"f{turn}x{it}"
                    lines += [f"link add {name} type veth peer name p{name}", f"link set {name} txqueuelen {it}"]
                    if chance.random() < .5:
                        lines.append(f"link set {name} name r{name}")
                        name = f"r{name}"
                    if chance.random() < .7:
                        lines.append(f"link del {name}")
                batch(lines)
                found += watch.ready()
            found += until_idle(watch)
            for it in found:
                if it.family == socket.AF_UNSPEC and it.change == "gone":
                    del told_of[it.ifindex]
                elif it.family == socket.AF_UNSPEC:
                    told_of[it.ifindex] = it.ifname
            lost += sum(it.change == "lost" for it in found)
            wants(f"what is there by a watch, with a queue of {queue} bytes", told_of, names())
        batch([f"link del {it}" for it in names().values() if it.startswith(("f", "rf"))])
    print(f"live: watch: what it has told is what is there, also where messages were lost, {lost} times")


def asks_again(links):
    """With `every` what the kernel does not announce: a group of a link that is down."""
    ip("link", "add", "down0", "type", "veth", "peer", "name", "down1")
    with links.watch(every=.2) as watch:
        until(watch, ("new", 0, "down0"))
        ip("link", "set", "down0", "group", "42")
        wants("what the next dump shows", linkwire.Change("group", 0, 42) in
              until(watch, ("changed", 0, "down0", "group"))[-1].changes, True)
    ip("link", "del", "down0")
    print("live: watch: every")


def leniently(links):
    """A link whose alias is Latin-1: strictly it is a fault, and leniently all is said of it, and followed."""
    ip("link", "add", "alias0", "type", "veth", "peer", "name", "alias1")
    index = links_by_name()["alias0"]

    def sets(*attributes):
        links.send(linkwire.build(attributes, index=index))

    sets((numbers.IFLA_IFALIAS, b"caf\xe9"))
    message = links.get("alias0")
    (refusal,) = linkwire.refusals(message)
    wants("what is refused", refusal[:4], (numbers.IFLA_IFALIAS, 0, b"caf\xe9\0", "not-utf8"))
    shown = linkwire.show(message, lenient=True)
    wants("what is said", (shown["ifname"], shown["mtu"], shown["refused"][0]["payload"]),
          ("alias0", 1500, "636166e900"))
    wants("a key that stands still", linkwire.key(links.get("alias0"), lenient=True),
          linkwire.key(message, lenient=True))
    with links.watch() as watch:
        wants("a fault", {(it.ifindex, it.fault.cause) for it in until_idle(watch) if it.change == "fault"},
              {(index, "not-utf8")})
    with links.watch(lenient=True) as watch:
        wants("what is there", {it.ifname for it in until_idle(watch) if it.change == "new"}, set(names().values()))
        sets((numbers.IFLA_MTU, linkwire.u32(1400)))
        wants("its MTU", linkwire.Change("mtu", 1500, 1400) in
              until(watch, ("changed", 0, "alias0", "mtu"))[-1].changes, True)
        sets((numbers.IFLA_IFALIAS, b"th\xe9"))  # which the kernel announces where the link is up
        ip("link", "set", "alias0", "up")
        paths = {path.split(".")[0] for it in told(until_idle(watch)) if it[2] == "alias0" for path in it[3:]}
        wants("its alias", "refused" in paths, True)
        ip("link", "del", "alias0")
        wants("that it went", ("gone", 0, "alias0") in told(until_idle(watch)), True)
    print("live: lenient: an alias in Latin-1 hides nothing")


async def turns(links):
    """Both for asyncio, at the same time as another task."""
    count = 0

    async def ticks():
        nonlocal count
        while True:
            count += 1
            await asyncio.sleep(.01)

    ticking = asyncio.ensure_future(ticks())
    with links.watch(every=5) as watch, links.monitor() as news:
        async for event in watch:
            if event.ifname == "lo":
                break
        asyncio.get_running_loop().call_later(.3, ip, "link", "set", "lo", "txqueuelen", "11")
        async for announced in news:
            wants("announced", name_of(announced.message), "lo")
            break
        async for event in watch:
            if "txqlen" in [it.path for it in event.changes]:
                break
        for _ in range(100):
            try:
                await asyncio.wait_for(watch.__anext__(), .1)
                sys.exit("live: an event where nothing happened")
            except asyncio.TimeoutError:
                if count > 10:
                    break
    ticking.cancel()
    wants("turns of another task", count > 10, True)
    print("live: asyncio: watch and monitor")


async def closes_tasks(links):
    """What `close` ends: a task that reads, also by another thread; and the next stream hears all."""
    for close in "here", "in a thread":
        stream = links.watch(changes_only=True)
        number = stream.fileno()
        task = asyncio.ensure_future(anext_of(stream))
        await asyncio.sleep(.1)
        if close == "here":
            stream.close()
        else:
            await asyncio.to_thread(stream.close) if hasattr(asyncio, "to_thread") else stream.close()
        wants(f"a task whose stream is closed {close}", await asyncio.wait_for(task, 5), None)
        wants("a number of what is closed", stream.fileno(), -1)
        with links.monitor() as news:
            wants("the same descriptor", news.fileno(), number)
            task = asyncio.ensure_future(anext_of(news))
            await asyncio.sleep(.05)
            ip("link", "set", "lo", "txqueuelen", "21" if close == "here" else "22")
            wants("what the next stream says", name_of((await asyncio.wait_for(task, 5)).message), "lo")


async def anext_of(stream):
    async for it in stream:
        return it


def closes(links):
    """What `close` ends: a thread that polls, a loop of a handler's; after it nothing asks anywhere."""
    asyncio.run(closes_tasks(links))
    stream, found = links.watch(changes_only=True), []
    thread = threading.Thread(target=lambda: found.append(list(stream)))
    thread.start()
    time.sleep(.2)
    stream.close()
    thread.join(5)
    wants("a thread whose stream is closed", (thread.is_alive(), found), (False, [[]]))
    wants("what is ready then", (stream.ready(), stream.due(), list(stream)), ([], None, []))
    before = len(os.listdir("/proc/self/fd"))
    for _ in range(20):
        one = linkwire.Links()
        with one.watch() as watch:
            next(watch)
        one.close()
    wants("descriptors that are left", len(os.listdir("/proc/self/fd")), before)
    one.close()
    told = set()
    for call in one.dump, one.monitor, one.watch, lambda: one.get("lo"), lambda: one.send(linkwire.build(index=1)):
        try:
            call()
        except ValueError as error:
            told.add(str(error))
    wants("why nothing is asked after close", told, {"these Links are closed"})
    answers = links.send(linkwire.build(), kind=numbers.RTM_GETLINK, flags=0x300)
    wants("a dump that is sent", [name_of(it) for it in answers], [name_of(it) for it in links.dump()])
    print("live: close: tasks, threads and Links")


def asks_within(links):
    """A finalizer or a handler of a signal asks in the middle of a request."""
    import signal

    count, is_over = 0, False

    def handler(*_):
        nonlocal count
        count += 1
        wants("asked within", name_of(links.get(index=1)), "lo")
        if not is_over:
            signal.setitimer(signal.ITIMER_REAL, .001)

    last = signal.signal(signal.SIGALRM, handler)
    signal.setitimer(signal.ITIMER_REAL, .001)
    try:
        while count < 200:
            wants("asked", name_of(links.get("lo")), "lo")
    finally:
        is_over = True
        signal.setitimer(signal.ITIMER_REAL, 0)
        signal.signal(signal.SIGALRM, last)
    print("live: requests within requests")


async def steps(links):
    """While a dump of many links is read other tasks have their turn, each few milliseconds."""
    longest, last, end = 0.0, 0.0, False

    async def ticks():
        nonlocal longest, last
        while not end:
            now = time.thread_time()
            longest, last = max(longest, now - last), now
            await asyncio.sleep(0)

    count, wanted = 0, len(names())
    with links.watch() as watch:
        last = time.thread_time()
        ticking = asyncio.ensure_future(ticks())
        async for it in watch:
            count += it.family == 0
            if count == wanted:
                break
        end = True
        await ticking
    return longest


def many(links):
    """What there is of a thousand links is read in short steps. They are left to the end of the namespace."""
    batch([f"link add many{it} type veth peer name much{it}" for it in range(500)])
    longest = min(asyncio.run(steps(links)) for _ in range(3))
    wants(f"a step of at most 5 ms of the processor, and not {longest * 1000:.1f}", longest < .005, True)
    with links.watch() as watch:
        found, waits = [], []
        while True:
            begun = time.thread_time()
            found += watch.ready(.001)
            waits.append(time.thread_time() - begun)
            if len(found) >= 1000:
                break
            due = watch.due()
            select.select([watch] if due != 0 else [], [], [], due)
        wants("ready with a limit", max(waits) < .02, True)
    print(f"live: {len(names())} links: the longest step takes {longest * 1000:.1f} ms of the processor")


def namespaces():
    """Links of another namespace, by a path."""
    with subprocess.Popen(["unshare", "-n", "sleep", "60"]) as other:
        try:
            own = os.stat("/proc/self/ns/net").st_ino
            path = f"/proc/{other.pid}/ns/net"
            while os.stat(path).st_ino == own:
                time.sleep(.01)
            with linkwire.Links(path) as links:
                wants("links there", [name_of(it) for it in links.dump()], ["lo"])
                links.send(veth("there0", "there1"), flags=NEW)
                with links.monitor() as news:
                    links.send(linkwire.build([(numbers.IFLA_MTU, linkwire.u32(1400))], index=1))
                    wants("announced there", name_of(next(news).message), "lo")
                wants("families there", {it[0] for it in links.dump(socket.AF_UNSPEC)}, {0})
            wants("the namespace of this thread", os.stat("/proc/self/ns/net").st_ino, own)
            wants("links here", "there0" in names().values(), False)
        finally:
            other.kill()
    for wrong in "no-such-namespace", "/dev/null":
        try:
            linkwire.Links(wrong)
            sys.exit(f"live: {wrong} is a namespace")
        except OSError:
            pass
    print("live: namespaces")


def main():
    if os.environ.get("LIVE_FORCE") is None and set(names().values()) - {"lo"} - {
            it for it in names().values() if it.startswith(("ifb", "tunl", "sit", "ip6tnl", "gre", "erspan"))}:
        sys.exit("live: not in a namespace of its own: unshare -n python3 tests/python/live.py")
    faulthandler.dump_traceback_later(1200, exit=True)  # 25 seconds, and 300 on a busy machine
    ip("link", "set", "lo", "up")
    try:
        ip("link", "add", "try0", "type", "veth", "peer", "name", "try1")
        ip("link", "del", "try0")
    except subprocess.CalledProcessError:
        print("live: skipped: the kernel knows no veth")
        return
    with linkwire.Links() as links:
        requests(links)
        dumps(links)
        filtered(links)
        monitors(links)
        watches(links)
        loses(links)
        follows(links)
        asks_again(links)
        leniently(links)
        asyncio.run(turns(links))
        closes(links)
        asks_within(links)
        namespaces()
        many(links)
    print("live: ok")


main()
