"""What docs/FLEET.md has for many machines: a store in SQLite and in PostgreSQL, and Dask, of which a worker is killed.

    python3 tests/python/fleet.py [--large MESSAGES]

PostgreSQL is Debian's, a server of its own in a folder, which listens at a socket there; as root it runs as the user
postgres. With --large nothing is tested, and Dask is timed on so many messages, with one worker and with two.
"""

import glob
import importlib
import logging
import os
import shutil
import signal
import sqlite3
import subprocess
import sys
import tempfile
import time

import linkwire

TOP = os.path.dirname(os.path.dirname(os.path.dirname(os.path.abspath(__file__))))
sys.path[:0] = [f"{TOP}/examples", f"{TOP}/tests/linkdump"]
ROWS = "SELECT host, family, ifindex, ifname, key, since, until FROM stretch ORDER BY since, host, family, ifindex"


def skips(what):
    print(f"python: skipped: {what}")


def wants(what, found, wanted):
    if found != wanted:
        sys.exit(f"fleet: {what}:\n{found}\nand not\n{wanted}")


def made(seed):
    """Lines of fifty hosts, of which some dumps are cut and some messages lost or refused."""
    import hosts

    return [line for _, line, _ in hosts.made(seed)]


def rows_of(lines):
    """The rows that a store has after these lines, by the rules of `Watch` alone."""
    watch, open_, closed = linkwire.Watch(lenient=True), {}, []
    for line in lines:
        try:
            events = watch.line(line)
        except ValueError:
            continue
        now = linkwire.read_line(line).words["time"]
        for it in events:
            link = it.host, it.family, it.ifindex
            if it.change in ("new", "changed", "gone") and link in open_:
                closed.append((*open_.pop(link), now))
            if it.change in ("new", "changed"):
                open_[link] = *link, it.ifname, linkwire.key(it.message, lenient=True), now
    return sorted([*closed, *((*row, None) for row in open_.values())], key=str)


def stores(database, lines, at):
    """Runs the store over lines, in two runs."""
    for part in lines[:at], lines[at:]:
        subprocess.run([sys.executable, f"{TOP}/examples/fleet.py", database], input="\n".join(part) + "\n", text=True,
                       check=True, timeout=300, stderr=subprocess.DEVNULL)


def sqlite(folder, lines):
    path = f"{folder}/links.db"
    stores(path, lines, len(lines))
    found = sqlite3.connect(path).execute(ROWS).fetchall()
    wants("rows in SQLite", sorted(found, key=str), rows_of(lines))
    again = f"{folder}/again.db"
    stores(again, lines, len(lines) // 2)
    is_open = ROWS.replace("ORDER", "WHERE until IS NULL ORDER")
    links = [{row[:5] for row in sqlite3.connect(it).execute(is_open)} for it in (path, again)]
    wants("links that are left where the store was started again", {it for it in links[1] - links[0]}, set())
    print(f"python: fleet.py in SQLite: {len(found)} rows of {len({row[0] for row in found})} hosts, and of two runs")


class Server:
    """PostgreSQL in a folder."""

    def __init__(self, folder, programs):
        self.folder, self.programs = f"{folder}/postgresql", programs
        os.mkdir(self.folder)
        self.user = ["runuser", "-u", "postgres", "--"] if os.geteuid() == 0 else []
        if self.user:
            os.chmod(folder, 0o711)
            shutil.chown(self.folder, "postgres")

    def run(self, program, *words):
        subprocess.run([*self.user, f"{self.programs}/{program}", *words], check=True, timeout=120, cwd=self.folder,
                       stdout=subprocess.DEVNULL)

    def __enter__(self):
        self.run("initdb", "-D", f"{self.folder}/data", "-A", "trust", "-N", "-U", "links")
        self.run("pg_ctl", "-D", f"{self.folder}/data", "-l", f"{self.folder}/log", "-w", "-o",
                 f"-c listen_addresses= -c unix_socket_directories={self.folder} -c fsync=off", "start")
        return f"host={self.folder} user=links dbname=postgres"

    def __exit__(self, *_):
        self.run("pg_ctl", "-D", f"{self.folder}/data", "-m", "immediate", "stop")


def postgresql(folder, lines):
    found = sorted(glob.glob("/usr/lib/postgresql/*/bin"))
    try:
        psycopg2 = importlib.import_module("psycopg2")
    except ImportError:
        skips("fleet.py in PostgreSQL: no psycopg2")
        return
    if not found or os.geteuid() == 0 and not shutil.which("runuser"):
        skips("fleet.py in PostgreSQL: no server, or no runuser")
        return
    with Server(folder, found[-1]) as words:
        stores(f"postgresql:{words}", lines, len(lines))
        with psycopg2.connect(words) as database, database.cursor() as cursor:
            cursor.execute(ROWS)
            rows = cursor.fetchall()
            cursor.execute("SELECT version()")
            version = cursor.fetchone()[0].split(" (")[0]
        database.close()
        wants("rows in PostgreSQL", sorted(rows, key=str), rows_of(lines))
    print(f"python: fleet.py in PostgreSQL: the same {len(rows)} rows: {version}")


def folder_of(folder, count, repeats):
    """Files of dumps by host, of the stored messages of kernels."""
    with open(f"{TOP}/tests/kernels/messages.txt", encoding="utf-8") as it:
        stored = [line.strip() for line in it if not line.startswith("#")]
    os.mkdir(f"{folder}/dumps")
    for host in range(count):
        with open(f"{folder}/dumps/h{host}.lines", "w", encoding="utf-8") as it:
            for turn in range(repeats):
                it.write(f"host=h{host} type=begin seq={turn} port=1\n")
                it.writelines(f"host=h{host} type=new kernel=6.18.0 seq={turn} port=1 {line}\n"
                              for line in stored[host % 7:])
                it.write(f"host=h{host} type=done seq={turn} port=1 family=0\n")
    return f"{folder}/dumps"


def dask(folder):
    try:
        example = importlib.import_module("fleet_dask")
    except ImportError as error:
        skips(f"fleet_dask.py: {error}")
        return
    logging.getLogger("distributed").setLevel(logging.ERROR)  # it warns of the worker
    dumps = folder_of(folder, 24, 12)
    alone = sorted(example.of_host(it) for it in glob.glob(f"{dumps}/*.lines"))
    with example.cluster(2) as cluster, example.Client(cluster) as client:
        processes = client.run(os.getpid)
        jobs = client.map(example.of_host, sorted(glob.glob(f"{dumps}/*.lines")), retries=3)
        while sum(it.status == "finished" for it in jobs) < 3:
            time.sleep(.01)
        left = sum(it.status != "finished" for it in jobs)
        os.kill(next(iter(processes.values())), signal.SIGKILL)
        found = sorted(client.gather(jobs))
        after = client.run(os.getpid)
    wants("what two workers say, of which one was killed", found, alone)
    wants("a worker that was killed", set(processes.values()) <= set(after.values()), False)
    print(f"python: fleet_dask.py: {sum(it[1]['messages'] for it in found)} messages of {len(found)} hosts, the same"
          f" with two workers of which one was killed when {left} hosts were left")


def large(count):
    with tempfile.TemporaryDirectory() as folder:
        dumps = folder_of(folder, 100, count // 100 // 112)
        for workers in "1", "2":
            print(workers, "workers:", subprocess.run(
                [sys.executable, f"{TOP}/examples/fleet_dask.py", dumps, workers], check=True, text=True,
                stdout=subprocess.DEVNULL, stderr=subprocess.PIPE).stderr.splitlines()[-1], flush=True)


def main():
    if sys.argv[1:2] == ["--large"]:
        large(int(sys.argv[2]))
        return
    with tempfile.TemporaryDirectory() as folder:
        lines = made(1)[:4000]
        sqlite(folder, lines)
        postgresql(folder, lines)
        dask(folder)


if __name__ == "__main__":
    main()
