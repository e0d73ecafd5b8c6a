#!/usr/bin/env python3
"""Measures packet_dump beside tcpdump and tshark: python3 measure.py PROGRAM FOLDER [GIGABYTES]

FOLDER is one of slice_bench's corpora.py. Of a million packets of each kind (64 bytes of UDP; mixed; fragments, with
--reassemble; mixed ones cut at 96 bytes) and of 200,000 as on an office's uplink, whose captures are written there, it
prints the user's processor time in seconds, the least and the median of five runs in turns (of tshark one), and the
greatest resident size in MiB, with the lines thrown away.
With GIGABYTES it then prints both of a capture of that size, read from a pipe. It needs tcpdump, tshark and GNU time.
"""
import os
import random
import statistics
import struct
import subprocess
import sys
import tempfile

PACKETS = 1_000_000
HEADING = struct.pack("<IHHIIII", 0xA1B2C3D4, 2, 4, 0, 0, 262144, 1)


def frames_of(path):
    """Yields the frames of a corpus."""
    data, start = open(path, "rb").read(), 0
    while start < len(data):
        (length,) = struct.unpack_from("<I", data, start)
        yield data[start + 4:start + 4 + length]
        start += 4 + length


def office_frames():
    """Returns 300 frames as on an office's uplink: mostly TCP and QUIC on port 443; DNS, NTP, ICMP, ARP and IPv6."""
    chosen = random.Random(1)

    def ports(server):
        pair = (chosen.randrange(49152, 65536), server)
        return pair if chosen.random() < 0.4 else pair[::-1]

    def tcp(length):
        fields = (*ports(443), chosen.randrange(2 ** 32), chosen.randrange(2 ** 32), 0x80, 0x10, 501, 0, 0)
        options = b"\x01\x01\x08\x0a" + chosen.randbytes(8)
        return 6, struct.pack(">HHIIBBHHH", *fields) + options + chosen.randbytes(length)

    def udp(server, payload):
        return 17, struct.pack(">HHHH", *ports(server), 8 + len(payload), 0) + payload

    def dns():
        name = b"\x03www\x07example\x03com\x00"
        return udp(53, struct.pack(">HHHHHH", chosen.randrange(65536), 0x0100, 1, 0, 0, 0) + name + b"\x00\x01\x00\x01")

    def frame(version, number, layer):
        link = b"\x02\0\0\0\0\1\x02\0\0\0\0\2"
        if version == 6:
            addresses = bytes.fromhex("20010db8") + chosen.randbytes(12) + bytes.fromhex("2a00") + chosen.randbytes(14)
            return link + b"\x86\xdd\x60\0\0\0" + struct.pack(">HBB", len(layer), number, 64) + addresses + layer
        head = struct.pack(">BBHHHBBH", 0x45, 0, 20 + len(layer), chosen.randrange(65536), 0x4000, 64, number, 0)
        return link + b"\x08\0" + head + bytes((192, 0, 2, chosen.randrange(256))) + chosen.randbytes(4) + layer

    frames = [frame(4, *tcp(1448)) for _ in range(110)] + [frame(4, *tcp(0)) for _ in range(60)]
    frames += [frame(4, *udp(443, chosen.randbytes(1250))) for _ in range(50)] + [frame(4, *dns()) for _ in range(30)]
    frames += [frame(6, *tcp(1428)) for _ in range(20)] + [frame(6, *dns()) for _ in range(10)]
    frames += [frame(4, *udp(123, b"\x23" + bytes(47))) for _ in range(6)]
    frames += [frame(4, 1, b"\x08\0\0\0\0\1\0\1" + bytes(56)) for _ in range(6)]
    sender = b"\x02\0\0\0\0\1"
    question = b"\0\1\x08\0\x06\x04\0\1" + sender + b"\xc0\0\2\1" + bytes(6) + b"\xc0\0\2\2"
    frames += 8 * [bytes(6 * [255]) + sender + b"\x08\x06" + question]
    chosen.shuffle(frames)
    return frames


def write(path, frames, kept, packets=None):
    """Writes a capture of `packets` packets (PACKETS if not given): these frames in turn, a microsecond apart, each
    truncated to `kept` bytes."""
    with open(path, "wb") as out:
        out.write(HEADING)
        for at in range(packets or PACKETS):
            frame = frames[at % len(frames)]
            cut = frame[:kept]
            out.write(struct.pack("<IIII", at // 1_000_000, at % 1_000_000, len(cut), len(frame)) + cut)


def taken(command, source=()):
    """Returns the user time and the maximum resident size of a run with the chunks of `source` as its input."""
    with tempfile.NamedTemporaryFile("r") as told, open(os.devnull, "wb") as nowhere:
        timed = ["/usr/bin/time", "-f", "%U %M", "-o", told.name, *command]
        run = subprocess.Popen(timed, stdin=subprocess.PIPE, stdout=nowhere, stderr=nowhere)
        for piece in source:
            run.stdin.write(piece)
        run.stdin.close()
        if run.wait():
            sys.exit(f"{command} ended with {run.returncode}")
        seconds, kilobytes = told.read().split()
    return float(seconds), int(kilobytes) / 1024


def in_turns(commands, runs):
    """Yields for each command the minimum and the median of the user times, and the maximum resident size."""
    for turns in zip(*([taken(command) for command in commands] for _ in range(runs))):
        times, sizes = zip(*turns)
        yield f"{min(times):6.2f} {statistics.median(times):6.2f} {max(sizes):6.1f}"


def main(program, folder, gigabytes=0):
    print("capture            packet_dump               tcpdump                tshark")
    for name, corpus, kept, words in (
        ("udp64", "udp64", 262144, []),
        ("mix", "mix", 262144, []),
        ("fragments", "interleaved", 262144, ["--reassemble", "--streams", "1000"]),
        ("cut", "mix", 96, []),
        ("office", None, 262144, []),
    ):
        path = f"{folder}/{name}.measured.pcap"
        if corpus:
            write(path, list(frames_of(f"{folder}/{corpus}")), kept)
        else:
            write(path, office_frames(), kept, 200_000)
        beside = in_turns([[program, *words, path], ["tcpdump", "-nn", "-r", path]], 5)
        print(f"{name:10}", *beside, *in_turns([["tshark", "-n", "-r", path]], 1), sep="   ", flush=True)
    if gigabytes:
        packets = open(f"{folder}/mix.measured.pcap", "rb").read()[len(HEADING):]
        times = int(gigabytes * 1e9) // len(packets)
        seconds, size = taken([program], (HEADING if at == 0 else packets for at in range(times + 1)))
        print(f"{times * len(packets) / 1e9:.1f} GB of mix: {seconds:.2f} s, {size:.1f} MiB")


if __name__ == "__main__":
    if len(sys.argv) < 3:
        sys.exit(__doc__)
    main(sys.argv[1], sys.argv[2], *map(float, sys.argv[3:]))
