#!/usr/bin/env python3
"""Keeps what the links of many machines were, a row for each stretch of time in which a link had one state.

    linkdump --monitor --every 60 --host NAME | fleet.py DATABASE

DATABASE is a file of SQLite, or `postgresql:` and the words of a connection (`postgresql:dbname=links`), by psycopg2.
Lines of any number of hosts come in one stream; a line's word `host=` says of which it is. It may be ended and started
again: rows that are open stay so where the links are as they were. docs/FLEET.md says how the lines are collected.
"""

import sqlite3
import sys

import linkwire

SCHEMA = """
CREATE TABLE IF NOT EXISTS stretch (
    host TEXT NOT NULL,
    family INTEGER NOT NULL,
    ifindex INTEGER NOT NULL,
    ifname TEXT,
    key TEXT NOT NULL,      -- of the state, with the forms in which it was written
    message TEXT NOT NULL,  -- the first that had it, in hexadecimal
    since TEXT NOT NULL,    -- times of lines, in UTC
    until TEXT              -- NULL as long as it lasts
);
CREATE UNIQUE INDEX IF NOT EXISTS open_stretch ON stretch (host, family, ifindex) WHERE until IS NULL;
"""


class Store:
    """The rows, by the one or the other database."""

    def __init__(self, database):
        self.mark = "?"
        if database.startswith("postgresql:"):
            import psycopg2

            self.it, self.mark = psycopg2.connect(database[len("postgresql:"):]), "%s"
        else:
            self.it = sqlite3.connect(database)
            self.it.executescript("PRAGMA journal_mode = WAL; PRAGMA synchronous = NORMAL")
        self.cursor = self.it.cursor()
        for statement in SCHEMA.split(";")[:-1]:
            self.run(statement)
        self.it.commit()

    def run(self, statement, *values):
        self.cursor.execute(statement.replace("?", self.mark), values)
        return self.cursor

    def known(self):
        """The host and the message of each row that is open."""
        rows = self.run("SELECT host, message FROM stretch WHERE until IS NULL").fetchall()
        return [(host, bytes.fromhex(message)) for host, message in rows]

    def take(self, event, time):
        """Writes what happened to a link."""
        if event.change in ("lost", "fault"):
            print(f"fleet: {event!r}", file=sys.stderr)
            return
        link = event.host, event.family, event.ifindex
        self.run("UPDATE stretch SET until = ? WHERE host = ? AND family = ? AND ifindex = ? AND until IS NULL", time,
                 *link)
        if event.change != "gone":
            self.run("INSERT INTO stretch VALUES (?, ?, ?, ?, ?, ?, ?, NULL)", *link, event.ifname,
                     linkwire.key(event.message, lenient=True), event.message.hex(), time)


def main(database):
    store, watch = Store(database), linkwire.Watch(lenient=True)  # an alias in Latin-1 hides no link
    for host, message in store.known():  # as it was left; the next whole dump says what went meanwhile
        watch.message(message, host=host)
    for line in sys.stdin:
        try:
            events = watch.line(line)
        except ValueError as error:  # a line that was cut, as of a connection that broke
            print(f"fleet: {error}", file=sys.stderr)
            continue
        for event in events:
            store.take(event, linkwire.read_line(line).words.get("time", ""))
        if events:
            store.it.commit()


if __name__ == "__main__":
    main(*sys.argv[1:])
