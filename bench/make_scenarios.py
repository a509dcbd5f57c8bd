#!/usr/bin/env python3
"""Makes the benchmark's scenarios. The reports of the first two are, with them, just below the most that an audit takes
(64 MiB).

usage: bench/make_scenarios.py FOLDER

bulk-88.txt     the scenario of `bulk 88`: clients that send 65,536 bytes each, of which one frame of seven is lost
idle-1000.txt   1,000 connections that are idle over 1,130 ticks
sends-1000.txt  1,000 clients that send 60,000 bytes each, of which no frame is lost
"""
import pathlib
import sys


def bulk(clients, size=65536, link=("dropeach a 7",)):
    lines = ["limit 5000", "host a 10.0.0.1 rto 8", "host b 10.0.0.2 rto 8", *link]
    for i in range(clients):
        lines += [f"app b s{i}", f"listen l {1000 + i}", "accept s l", "drain s", "close s"]
    for i in range(clients):
        lines += [f"app a c{i}", f"connect s b {1000 + i}", f"fill s {size}", "close s"]
    return lines


def idle(clients, ticks):
    lines = [f"limit {ticks}", "host a 10.0.0.1", f"host b 10.0.0.2 backlog {clients}"]
    lines += ["app b s", "listen l 80", "wait 10000"]
    for i in range(clients):
        lines += [f"app a c{i}", "connect s b 80", "wait 10000"]
    return lines


def main():
    folder = pathlib.Path(sys.argv[1])
    folder.mkdir(parents=True, exist_ok=True)
    made = ("bulk-88", bulk(88)), ("idle-1000", idle(1000, 1130)), ("sends-1000", bulk(1000, 60000, ()))
    for name, lines in made:
        (folder / f"{name}.txt").write_text("\n".join(lines) + "\n")


main()
