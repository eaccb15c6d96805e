#!/usr/bin/env python3
"""Counts over files of dumps, one file a host, by Dask: what each host has, and how many states its links had.

    fleet_dask.py FOLDER [WORKERS | ADDRESS]

FOLDER has lines of linkdump in HOST.lines, of one dump or of many. WORKERS are processes that are started here (2), and
ADDRESS is that of a scheduler, whose workers see FOLDER under the same name and have the package. A worker that ends
takes nothing with it: its files are read again by another. docs/FLEET.md says more.
"""

import glob
import itertools
import os
import sys
import time
from collections import Counter

import linkwire
from distributed import Client, LocalCluster, as_completed


def of_host(path):
    """Returns of one file the host, how many messages it has and of how many some is refused, its states and kinds."""
    keys, kinds, counts = set(), Counter(), Counter()
    with open(path, encoding="utf-8") as lines:
        found = (it for it in map(linkwire.read_line, lines) if it.message is not None)
        for kernel, same in itertools.groupby(found, lambda it: it.words.get("kernel")):
            messages = [it.message for it in same]
            counts["messages"] += len(messages)
            for message, link in zip(messages, linkwire.show_all(messages, kernel, lenient=True)):
                try:
                    keys.add(linkwire.key(message, lenient=True))
                except linkwire.Fault:
                    counts["refused"] += 1
                    continue
                counts["refused"] += "refused" in link
                kinds[link.get("linkinfo", {}).get("kind", "")] += 1
    return os.path.basename(path)[:-len(".lines")], dict(counts), len(keys), dict(kinds)


def results(client, folder):
    """Returns what each host has, by its name, as the files are done."""
    files = sorted(glob.glob(f"{folder}/*.lines"))
    jobs = client.map(of_host, files, key=files, retries=3)
    return sorted(job.result() for job in as_completed(jobs))


def cluster(workers):
    return LocalCluster(n_workers=workers, threads_per_worker=1, dashboard_address=None)


def main(folder, where="2"):
    with Client(cluster(int(where)) if where.isdigit() else where) as client:
        start = time.monotonic()
        found = results(client, folder)
        seconds = time.monotonic() - start
    for host, counts, states, kinds in found:
        print(host, counts.get("messages", 0), "messages,", counts.get("refused", 0), "refused,", states, "states,",
              ", ".join(f"{count} {kind or 'without a kind'}" for kind, count in sorted(kinds.items())))
    print(f"fleet: {sum(it[1].get('messages', 0) for it in found)} messages of {len(found)} hosts, {seconds:.1f} s",
          file=sys.stderr)


if __name__ == "__main__":
    main(*sys.argv[1:])
