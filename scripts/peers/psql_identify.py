#!/usr/bin/env python3
"""psql asks `pgnode identify` who it is.

`pgnode identify` reads a whole session before it answers, and psql sends its query after the greeting. So this program
stands between them on a loopback port: it keeps what psql has sent, has pgnode answer that with the end of a session
after it, and passes on what psql has not had yet. psql must print the row that the words ask for.

Run by hand after `make`: scripts/peers/psql_identify.py. It is skipped with a word where psql is missing.
"""
import pathlib
import shutil
import socket
import subprocess
import sys
import threading

ROOT = pathlib.Path(__file__).resolve().parents[2]
WORDS = ["identify", "7", "1", "0/1000028"]
ROW = "7|1|0/1000028|"
END = b"X\0\0\0\4"
REQUESTS = (80877103, 80877104)


def answer(session):
    """What pgnode writes for this session."""
    done = subprocess.run([ROOT / "bin" / "pgnode", *WORDS], input=session, capture_output=True)
    if done.returncode != 0:
        sys.exit(f"pgnode ended {done.returncode}: {done.stderr.decode()}")
    return done.stdout


def receive(peer, size):
    """So many bytes, or fewer where the peer ends."""
    got = b""
    while len(got) < size:
        piece = peer.recv(size - len(got))
        if not piece:
            break
        got += piece
    return got


def packet(peer, kind):
    """A whole packet, or a whole message where a type byte comes first, or nothing at the peer's end."""
    head = receive(peer, 5 if kind else 4)
    return head + receive(peer, int.from_bytes(head[-4:], "big") - 4) if head else b""


def serve(listener):
    """One session of psql."""
    peer, _ = listener.accept()
    with peer:
        sent = b""
        had = 0
        started = False
        while message := packet(peer, started):
            if message == END:
                return
            sent += message
            if not started and int.from_bytes(message[4:8], "big") in REQUESTS:
                peer.sendall(b"N")
                had += 1
                continue
            started = True
            reply = answer(sent + END)
            peer.sendall(reply[had:])
            had = len(reply)


def main():
    if shutil.which("psql") is None:
        print("skipped: no psql here")
        return
    with socket.create_server(("127.0.0.1", 0)) as listener:
        thread = threading.Thread(target=serve, args=(listener,), daemon=True)
        thread.start()
        port = listener.getsockname()[1]
        asked = subprocess.run(
            ["psql", f"host=127.0.0.1 port={port} user=repl dbname=postgres replication=true",
             "-X", "-A", "-t", "-c", "IDENTIFY_SYSTEM"],
            capture_output=True, text=True, timeout=60)
        thread.join(timeout=10)
    if asked.returncode != 0 or asked.stdout.strip() != ROW:
        sys.exit(f"psql ended {asked.returncode} with {asked.stdout!r}: {asked.stderr}")
    print("psql read", ROW)


if __name__ == "__main__":
    main()
