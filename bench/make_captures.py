#!/usr/bin/env python3
"""Writes the captures that the benchmark replays: raw IP, little-endian, checksums right.

one-6.pcap, one-60.pcap: one upload of 6 and of 60 MB in segments of 1,460 bytes.
many-60.pcap: 1,000 uploads of 60 MB in all, a segment of each in turn.
large-60.pcap: the same in segments of 20,000 bytes, as a network card that merges segments hands them up.
short-100k.pcap: 100,000 connections, each a SYN and a reset.
idle.pcap: 1,000 connections, and then 23,000 ticks in which only one of them gets anything.
syns.pcap: 1,190,000 SYNs, each from another end.
reopened.pcap: 500,000 times a SYN and a reset on one four-tuple.
empty.pcap: 4,194,000 records without a byte.
small.pcap: 1,170,000 segments of one byte, in order.
scaled-60.pcap: a download of 60 MB, whose ends scale their windows by 7: the local host sends segments of 1,460 bytes,
    of which each second one is acknowledged.
scaled-idle.pcap: 1,000 connections whose ends scale their windows by 7, and on which nothing is sent.
"""
import os
import struct
import sys

LOCAL = bytes([10, 0, 0, 2])
REMOTE = bytes([10, 0, 0, 1])
MSS = 1460


def total(data):
    if len(data) % 2:
        data += b"\0"
    return sum(struct.unpack(">%dH" % (len(data) // 2), data))


def checksum(number):
    while number > 0xFFFF:
        number = (number & 0xFFFF) + (number >> 16)
    return 0xFFFF - number


def packet(port, seq, ack, flags, payload, payload_total, remote=REMOTE, is_local=False, window=65535, options=b""):
    """A segment from the remote host's port to the local port 80, or back."""
    ends, ports = (LOCAL + remote, (80, port)) if is_local else (remote + LOCAL, (port, 80))
    length = 40 + len(options) + len(payload)
    ip = struct.pack(">BBHHHBBH", 0x45, 0, length, 0, 0x4000, 64, 6, 0) + ends
    ip = ip[:10] + struct.pack(">H", checksum(total(ip))) + ip[12:]
    offset = 20 + len(options) << 2
    tcp = struct.pack(">HHIIBBHHH", *ports, seq % 2**32, ack % 2**32, offset, flags, window, 0, 0) + options
    pseudo = total(ends) + 6 + len(tcp) + len(payload)
    tcp = tcp[:16] + struct.pack(">H", checksum(pseudo + total(tcp) + payload_total)) + tcp[18:]
    return ip + tcp + payload


class Capture:
    def __init__(self, path):
        self.file = open(path, "wb")
        self.file.write(struct.pack("<IHHIIII", 0xA1B2C3D4, 2, 4, 0, 0, 65535, 101))

    def add(self, data):
        self.file.write(struct.pack("<IIII", 0, 0, len(data), len(data)) + data)


def uploads(path, flows, size, segment=MSS):
    """So many uploads of `size` bytes in all, a segment of each in turn."""
    capture = Capture(path)
    payload = bytes((i * 7 + i // 251) % 256 for i in range(segment))
    payload_total = total(payload)
    # The host's n-th flow begins at the sequence number 64,000 n.
    flow_acks = [(20000 + i, (64000 * i + 1) % 2**32) for i in range(flows)]
    for port, _ in flow_acks:
        capture.add(packet(port, 100, 0, 2, b"", 0))
    for port, ack in flow_acks:
        capture.add(packet(port, 101, ack, 16, b"", 0))
    for turn in range(size // (segment * flows)):
        for port, ack in flow_acks:
            capture.add(packet(port, 101 + turn * segment, ack, 24, payload, payload_total))


# MSS 1,460 and Window Scale 7, as a SYN bears them (RFC 7323, section 2.2).
SCALED = struct.pack(">BBHBBBB", 2, 4, MSS, 1, 3, 3, 7)


def scaled(capture, port):
    """A connection that the remote host opens; the local one's number is 7,000."""
    capture.add(packet(port, 100, 0, 2, b"", 0, options=SCALED))
    capture.add(packet(port, 7000, 101, 18, b"", 0, is_local=True, options=SCALED))
    capture.add(packet(port, 101, 7001, 16, b"", 0, window=2048))


def download(path, size):
    """One download of so many bytes, with 262,144 bytes of room for it."""
    capture = Capture(path)
    scaled(capture, 20000)
    payload = bytes((i * 7 + i // 251) % 256 for i in range(MSS))
    payload_total = total(payload)
    for turn in range(size // MSS):
        sent = 7001 + turn * MSS
        capture.add(packet(20000, sent, 101, 24, payload, payload_total, is_local=True, window=2048))
        if turn % 2:
            capture.add(packet(20000, 101, sent + MSS, 16, b"", 0, window=2048))


def scaled_idle(path, flows):
    """So many connections on which nothing is sent."""
    capture = Capture(path)
    for i in range(flows):
        scaled(capture, 20000 + i)


def resets(path, count):
    """So many connections, each a SYN and a reset, 50,000 of a remote host."""
    capture = Capture(path)
    for i in range(count):
        remote = bytes([11, 0, 0, 1 + i // 50_000])
        capture.add(packet(1024 + i % 50_000, 100, 0, 2, b"", 0, remote))
        capture.add(packet(1024 + i % 50_000, 101, 0, 4, b"", 0, remote))


class Short:
    """Segments of a remote host with no payload or one byte, made fast: record head and packet in one piece."""

    FORM = struct.Struct(">BBHHHBBHIIHHIIBBHHH")

    def __init__(self, capture):
        self.file = capture.file

    def add(self, raddr, port, seq, ack, flags, payload=b""):
        length = 40 + len(payload)
        laddr = int.from_bytes(LOCAL, "big")
        ends = (raddr >> 16) + (raddr & 0xFFFF) + (laddr >> 16) + (laddr & 0xFFFF)
        ip_sum = checksum(0x4500 + length + 0x4000 + 0x4006 + ends)
        numbers = (seq >> 16) + (seq & 0xFFFF) + (ack >> 16) + (ack & 0xFFFF)
        body = payload[0] << 8 if payload else 0
        tcp_sum = checksum(ends + 6 + 20 + len(payload) + port + 80 + numbers + 0x5000 + flags + 65535 + body)
        head = struct.pack("<IIII", 0, 0, length, length)
        packet = self.FORM.pack(
            0x45, 0, length, 0, 0x4000, 64, 6, ip_sum, raddr, laddr, port, 80, seq, ack, 0x50, flags, 65535, tcp_sum, 0
        )
        self.file.write(head + packet + payload)


REMOTE_NUMBER = int.from_bytes(REMOTE, "big")


def idle(path, flows, ticks):
    """So many connections that stand, and then so many ticks, each with an acknowledgement of the first of them."""
    capture = Short(Capture(path))
    for i in range(flows):
        capture.add(REMOTE_NUMBER, 20000 + i, 100, 0, 2)
    for i in range(flows):
        capture.add(REMOTE_NUMBER, 20000 + i, 101, (64000 * i + 1) % 2**32, 16)
    for _ in range(ticks):
        capture.add(REMOTE_NUMBER, 20000, 101, 1, 16)


def syns(path, count):
    """So many SYNs, each from another end."""
    capture = Short(Capture(path))
    for i in range(count):
        capture.add(0x0B000001 + i // 50_000, 1024 + i % 50_000, 100, 0, 2)


def reopened(path, count):
    """So many times a SYN and a reset on one four-tuple."""
    capture = Short(Capture(path))
    for _ in range(count):
        capture.add(REMOTE_NUMBER, 20000, 100, 0, 2)
        capture.add(REMOTE_NUMBER, 20000, 101, 0, 4)


def empty(path, count):
    """So many records without a byte."""
    Capture(path).file.write(bytes(16 * count))


def small(path, count):
    """So many segments of one byte, in order."""
    capture = Short(Capture(path))
    capture.add(REMOTE_NUMBER, 20000, 100, 0, 2)
    capture.add(REMOTE_NUMBER, 20000, 101, 1, 16)
    for i in range(count):
        capture.add(REMOTE_NUMBER, 20000, (101 + i) % 2**32, 1, 24, b"a")


def main():
    folder = sys.argv[1]
    os.makedirs(folder, exist_ok=True)
    uploads(os.path.join(folder, "one-6.pcap"), 1, 6_000_000)
    uploads(os.path.join(folder, "one-60.pcap"), 1, 60_000_000)
    uploads(os.path.join(folder, "many-60.pcap"), 1000, 60_000_000)
    uploads(os.path.join(folder, "large-60.pcap"), 1000, 60_000_000, 20_000)
    resets(os.path.join(folder, "short-100k.pcap"), 100_000)
    idle(os.path.join(folder, "idle.pcap"), 1000, 23_000)
    syns(os.path.join(folder, "syns.pcap"), 1_190_000)
    reopened(os.path.join(folder, "reopened.pcap"), 500_000)
    empty(os.path.join(folder, "empty.pcap"), 4_194_000)
    small(os.path.join(folder, "small.pcap"), 1_170_000)
    download(os.path.join(folder, "scaled-60.pcap"), 60_000_000)
    scaled_idle(os.path.join(folder, "scaled-idle.pcap"), 1000)


if __name__ == "__main__":
    main()
