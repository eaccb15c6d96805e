#!/usr/bin/env python3
"""Keeps in SQLite what the kernel's links were: a row for each stretch of time in which a link had one state.

    store.py FILE [POLLS [SECONDS]]

It polls POLLS times (1), SECONDS apart (1), by the package in python/. docs/STORE.md says why it is done so.
"""

import hashlib
import socket
import sqlite3
import sys
import time

import linkwire

SCHEMA = """
CREATE TABLE IF NOT EXISTS encoding (
    key BLOB NOT NULL,                  -- the SHA-256 of the state encoding
    canonical_form INTEGER NOT NULL,    -- the forms in which it was written
    state_form INTEGER NOT NULL,
    state BLOB NOT NULL,                -- the state encoding
    PRIMARY KEY (key, canonical_form, state_form)
);
CREATE TABLE IF NOT EXISTS stretch (
    host TEXT NOT NULL,                 -- the machine, or network namespace, that was polled
    family INTEGER NOT NULL,            -- of the header
    ifindex INTEGER NOT NULL,
    key BLOB NOT NULL,
    canonical_form INTEGER NOT NULL,
    state_form INTEGER NOT NULL,
    since REAL NOT NULL,                -- the first poll that had it, and the last
    until REAL NOT NULL,
    is_open INTEGER NOT NULL            -- 0 where a later poll had another state, or no such link
);
CREATE UNIQUE INDEX IF NOT EXISTS open_stretch ON stretch (host, family, ifindex) WHERE is_open;
"""
FORMS = linkwire.CANONICAL_FORM, linkwire.STATE_FORM
CLOSE = "UPDATE stretch SET is_open = 0 WHERE host = ? AND family = ? AND ifindex = ? AND is_open"


def state_of(message):
    """The state encoding of a message, or nothing where it is refused."""
    try:
        return linkwire.state(message)
    except linkwire.Fault as fault:
        print(f"store: a link is refused: {fault}", file=sys.stderr)
        return None


def poll(links):
    """The state encodings of the kernel's links by family and index; of bridges' ports under AF_BRIDGE too."""
    return {(message[0], int.from_bytes(message[4:8], "little")): state_of(message)
            for family in (socket.AF_UNSPEC, socket.AF_BRIDGE) for message in links.dump(family)}


def keep(store, host, found, now):
    """Writes one poll: a link that has the state of its open row makes that row longer, and any other begins one."""
    for link in store.execute("SELECT family, ifindex FROM stretch WHERE host = ? AND is_open", (host,)).fetchall():
        if link not in found:
            store.execute(CLOSE, (host, *link))
    for link, state in found.items():
        if state is None:  # the link is not known to have changed
            continue
        key = (hashlib.sha256(state).digest(), *FORMS)
        longer = store.execute("""
            UPDATE stretch SET until = ? WHERE host = ? AND family = ? AND ifindex = ? AND is_open
            AND key = ? AND canonical_form = ? AND state_form = ?
            """, (now, host, *link, *key))
        if longer.rowcount == 0:
            store.execute(CLOSE, (host, *link))
            store.execute("INSERT OR IGNORE INTO encoding VALUES (?, ?, ?, ?)", (*key, state))
            store.execute("INSERT INTO stretch VALUES (?, ?, ?, ?, ?, ?, ?, ?, 1)", (host, *link, *key, now, now))


def main(path, polls="1", seconds="1"):
    store = sqlite3.connect(path)
    store.executescript(SCHEMA)
    with linkwire.Links() as links:
        for turn in range(int(polls)):
            if turn > 0:
                time.sleep(float(seconds))
            with store:  # all of a poll, or nothing
                keep(store, socket.gethostname(), found := poll(links), time.time())
    rows, keys = (store.execute(f"SELECT count(*) FROM {it}").fetchone()[0] for it in ("stretch", "encoding"))
    print(f"store: {len(found)} links, {polls} polls, {rows} rows, {keys} encodings")


if __name__ == "__main__":
    main(*sys.argv[1:])
