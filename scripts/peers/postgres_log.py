#!/usr/bin/env python3
"""A walk over the log of PostgreSQL's own server, whose pages and records have the layout of ours.

Makes a database in a folder of its own, lets pgbench write into it, stops it, and walks over its log with
`bench_parts log`: as many records have to be whole as pg_waldump prints, the last has to start where pg_waldump's does, and
after it the log has to go on with a record of 0 bytes, at the position that pg_waldump names. Run after
`cd crates/bench_parts && rt run -- turn 2 1000`, by hand. The server listens on a socket in that folder alone, and is
stopped at the end. Skipped with a word where PostgreSQL's server is missing.
"""
import glob
import os
import pwd
import re
import shutil
import struct
import subprocess
import sys
import tempfile

TOP = os.path.dirname(os.path.dirname(os.path.dirname(os.path.abspath(__file__))))
BENCH = os.path.join(TOP, "crates/bench_parts/out/bench_parts")
TOOLS = ("initdb", "pg_ctl", "pgbench", "pg_waldump")


def tools():
    """The folder with the server's tools, or None."""
    folders = os.environ["PATH"].split(":") + sorted(glob.glob("/usr/lib/postgresql/*/bin"), reverse=True)
    for folder in folders:
        if all(os.path.exists(os.path.join(folder, tool)) for tool in TOOLS):
            return folder
    return None


def owner():
    """The user under whom the server runs, since it refuses root: None for the present one."""
    return "postgres" if os.getuid() == 0 else None


def run(folder, tool, *words):
    command = [os.path.join(folder, tool), *words]
    return subprocess.run(command, user=owner(), capture_output=True, text=True, check=False)


def written(folder, base):
    """The segments of a log that a server wrote, in order."""
    data = os.path.join(base, "data")
    run(folder, "initdb", "-D", data, "-A", "trust").check_returncode()
    with open(os.path.join(data, "postgresql.conf"), "a") as file:
        file.write(f"unix_socket_directories = '{base}'\nlisten_addresses = ''\nwal_keep_size = 1GB\n")
    run(folder, "pg_ctl", "-D", data, "-l", os.path.join(base, "log"), "-w", "start").check_returncode()
    try:
        run(folder, "pgbench", "-h", base, "-i", "-s", "3", "postgres").check_returncode()
        run(folder, "pgbench", "-h", base, "-t", "300", "-c", "4", "postgres").check_returncode()
    finally:
        run(folder, "pg_ctl", "-D", data, "-w", "stop").check_returncode()
    return sorted(glob.glob(os.path.join(data, "pg_wal", "0000000100000000*")))


def walked(segments):
    """What `bench_parts log` prints: the count, the last start and end, the place of the fault and its text."""
    with open(segments[0], "rb") as file:
        head = file.read(40)
    (magic,), (system,) = struct.unpack_from("<H", head), struct.unpack_from("<Q", head, 24)
    log = b"".join(open(segment, "rb").read() for segment in segments)
    answer = subprocess.run([BENCH, "log", str(magic), str(system)], input=log, capture_output=True, check=True)
    return answer.stdout.decode().split(maxsplit=4)


def dumped(folder, segments):
    """The same as pg_waldump prints it."""
    answer = run(folder, "pg_waldump", segments[0], segments[-1])
    lines = answer.stdout.splitlines()
    position = re.compile(r"lsn: (\w+)/(\w+)").search(lines[-1])
    end = re.search(r"invalid record length at (\w+)/(\w+)", answer.stderr)
    number = [f"{int(m[1], 16) << 32 | int(m[2], 16):X}" for m in (position, end)]
    return [str(len(lines)), number[0], number[1], number[1], "a record of 0 bytes\n"]


def main():
    folder = tools()
    if folder is None or not os.path.exists(BENCH):
        print("skipped: PostgreSQL's server or bench_parts is missing")
        return 0
    base = tempfile.mkdtemp(prefix="log")
    try:
        if owner():
            os.chown(base, pwd.getpwnam(owner()).pw_uid, -1)
        segments = written(folder, base)
        ours, theirs = walked(segments), dumped(folder, segments)
    finally:
        shutil.rmtree(base, ignore_errors=True)
    print(f"{ours[0]} records, the last at {ours[1]}, and at {ours[3]}: {ours[4]}", end="")
    if ours != theirs:
        print(f"pg_waldump: {theirs}")
        return 1
    return 0


if __name__ == "__main__":
    sys.exit(main())
