#!/usr/bin/env python3
"""Compares two builds of packet_dump: python3 compare/same.py [--all] OLD NEW [CAPTURE..]

OLD and NEW are built programs, such as out/packet_dump before and after a change that keeps every output. Both read
each CAPTURE (a file, or a folder with files) with each set of options: one of each row of CHOICES, and one of TURNS,
another one for the next capture; with --all each of TURNS for each capture, which takes nine times as long. The script
prints each difference of standard output, standard error, the exit status or the file that --write makes, at the end
how many there are, and ends with status 1 if there is one. A program that lacks an option rejects it, which is a
difference.

Without CAPTURE the script makes captures of 14 kinds, equal ones at each run: frames of all kinds (corpora.py of
slice_bench); the same truncated at 20, 40, 64 and 96 bytes; pcapng (captures.py, texts.py); cooked captures of both
versions; raw IP; BSD loopback; MACsec; fragments; more streams than are kept; ICMP errors; TCP options, also malformed
ones; captures with damaged blocks; pcap in nanoseconds; pcap in big endian. It is no part of the gate.
"""
import importlib.util
import itertools
import os
import random
import struct
import subprocess
import sys
import tempfile
from concurrent.futures import ThreadPoolExecutor

# The file that --write makes, in the folder of a run.
WRITTEN = "written"
CHOICES = (
    ("", "--strict"),
    ("", "--reassemble", "--reassemble --timeout 1 --streams 3 --limit 2000",
     "--reassemble --overlap discard --fragment-age 2 --fragment-bytes 20000", "--reassemble --overlap first",
     "--reassemble --overlap last --fragment-bytes 9000"),
    ("", "--verbose"),
    ("", "--summary", "--summary --quiet"),
    ("", f"--write {WRITTEN}"),
    ("", "--only udp", "--only stopped", "--only refused --count 40", "--port 53", "--only tcp --net 128.0.0.0/1",
     "--host 192.168.1.2 --vlan 5", "not tcp and len > 60", "--only arp", "--only icmp --count 200"),
)
TURNS = list(map(" ".join, itertools.product(("", "--hex", "--hex=frame"), ("", "--time epoch", "--time utc"))))
HERE = os.path.dirname(os.path.dirname(os.path.abspath(__file__)))
spec = importlib.util.spec_from_file_location("corpora", os.path.join(HERE, "..", "slice_bench", "corpora.py"))
corpora = importlib.util.module_from_spec(spec)
spec.loader.exec_module(corpora)


def pcap(packets, link=1, kept=262144, order="<", magic=0xA1B2C3D4, gap=1000):
    """A pcap capture of these packets, `gap` ticks apart, each truncated to `kept` bytes."""
    units = 1_000_000_000 if magic == 0xA1B23C4D else 1_000_000
    capture = struct.pack(order + "IHHIIII", magic, 2, 4, 0, 0, 262144, link)
    for at, packet in enumerate(packets):
        cut, time = packet[:kept], at * gap
        capture += struct.pack(order + "IIII", 1_600_000_000 + time // units, time % units, len(cut), len(packet)) + cut
    return capture


def ip_frame(rng, number, packet, addresses):
    """A frame with an IPv4 or IPv6 packet, by the length of its addresses."""
    if len(addresses) == 8:
        return corpora.ethernet(rng, 0x0800, corpora.ipv4(rng, number, packet, addresses=addresses))
    return corpora.ethernet(rng, 0x86DD, corpora.ipv6(rng, number, packet, addresses))


def frames_of(rng):
    """Frames of all kinds, among them tagged ones, random contents, and frames that are too short."""
    yield from (corpora.mixed_frame(rng) for _ in range(100))
    yield from (corpora.udp_frame(rng, 9, ((0x88A8, 7), (0x8100, 5), (0x9100, 9))), corpora.tcp_frame(rng, 64))
    for kind in (0x0800, 0x86DD, 0x0806, 0x88CC, 40, 0x88E5, 0x8100):
        yield corpora.ethernet(rng, kind, rng.randbytes(50))
    yield from (rng.randbytes(length) for length in (0, 1, 13, 14, 60))


def cooked(rng, payloads):
    """Packets of cooked captures of both versions: each direction, hardware types and addresses of several kinds."""
    first, second = [], []
    for at, (kind, payload) in enumerate(payloads):
        way, length, address = at % 9, at % 10, rng.randbytes(8)
        hardware = (1, 772, 778, 512, 824, 803, 770, 65535)[at // 2 % 8]
        first.append(struct.pack(">HHH8sH", way, hardware, length, address, kind) + payload)
        second.append(struct.pack(">HHIHBB8s", kind, 0, at, hardware, way, length, address) + payload)
    return first + [first[0][:15]], second + [second[0][:19]]


def loopback(payloads):
    """Packets of BSD loopback: each address family in both byte orders."""
    families = [struct.pack(order + "I", family) for order in "<>" for family in (2, 10, 24, 28, 30, 7, 0)]
    return [family + payload for family, (_, payload) in zip(families * 9, payloads)] + [b"\2\0\0"]


def macsec(rng, payloads):
    """MACsec frames: all bits of the tag's first byte, and short lengths, some too long."""
    for at, (kind, payload) in zip(range(128), itertools.cycle(payloads)):
        tag = struct.pack(">BBI", 2 * at, (0, 0, 1, 20, 47, 63)[at % 6], at) + rng.randbytes(at // 16 % 2 * 8)
        yield corpora.ethernet(rng, 0x88E5, tag + struct.pack(">H", kind) + payload)


def icmp_errors(rng, payloads):
    """ICMP messages of each type, with several codes, that quote a packet, most of them truncated."""
    for at, (kind, payload) in zip(range(512), itertools.cycle(payloads)):
        message = struct.pack(">BBHI", at // 2, at % 5, 0, rng.getrandbits(32)) + payload[: (28, 48, 60, 1500)[at % 4]]
        number = 58 if kind == 0x86DD else 1
        yield ip_frame(rng, number, message, rng.randbytes(32 if number == 58 else 8))


def with_options(rng):
    """TCP segments with several options, some unknown, truncated or of a wrong length."""
    options = list(map(bytes.fromhex, (
        "00 01 02040578 030307 0402 050a0000000100000002 051200000001000000020000000300000004 080a0102030405060708 "
        "1e04abcd 02030578 0303 05 080b0102030405060708 fe00 0501").split()))
    for at in range(150):
        picked = b"".join(rng.choices(options, k=1 + at % 6))[:40]
        addresses = rng.randbytes((8, 32)[at % 2])
        segment = corpora.tcp(rng, addresses, rng.randbytes(at % 20), picked + bytes(-len(picked) % 4))
        yield ip_frame(rng, 6, segment, addresses)


def fragments(rng, streams, count):
    """The fragments of several datagrams in turns, some of them left out, repeated or truncated."""
    for turn in zip(*(corpora.stream_fragments(rng, count) for _ in range(streams))):
        for frame in turn:
            yield from rng.choice([[frame]] * 27 + [[], [frame, frame], [frame[:70]]])


def damaged(rng, capture):
    """A capture with three bytes changed, and without its end."""
    capture = bytearray(capture[: rng.randrange(len(capture) // 2, len(capture))])
    for _ in range(3):
        capture[rng.randrange(len(capture))] = rng.choice((0, 1, 255, rng.randrange(256)))
    return bytes(capture)


def make_captures(folder):
    """Writes the captures of all kinds into the folder."""
    rng = random.Random(1)
    frames = list(frames_of(rng))
    payloads = [(int.from_bytes(frame[12:14], "big"), frame[14:]) for frame in frames]
    packets = [payload for kind, payload in payloads if kind in (0x0800, 0x86DD)]
    sll, sll2 = cooked(rng, payloads)
    made = {f"cut{kept}": pcap(frames, kept=kept) for kept in (20, 40, 64, 96)}
    made |= {
        "frames": pcap(frames), "cooked": pcap(sll, 113), "cooked2": pcap(sll2, 276), "raw": pcap(packets, 101),
        "ipv6": pcap(packets, 229), "loopback": pcap(loopback(payloads), 0), "openbsd": pcap(loopback(payloads), 108),
        "other": pcap(packets, 147), "macsec": pcap(macsec(rng, payloads)), "icmp": pcap(icmp_errors(rng, payloads)),
        "fragments": pcap(fragments(rng, 20, 3)), "flood": pcap(fragments(rng, 300, 2), gap=9000),
        "options": pcap(with_options(rng)), "nanos": pcap(frames, magic=0xA1B23C4D), "big": pcap(frames, order=">"),
    }
    names = [os.path.join(folder, name) for name in ("small.pcap", "small.pcapng", "texts.pcapng")]
    for script, files in (("captures.py", names[:2]), ("texts.py", [names[2], os.devnull, os.devnull])):
        subprocess.run([sys.executable, os.path.join(HERE, script), *files], check=True)
    for at, name in enumerate(names * 2):
        with open(name, "rb") as file:
            made[f"damaged{at}"] = damaged(rng, file.read())
    for name, capture in made.items():
        with open(os.path.join(folder, name), "wb") as file:
            file.write(capture)


def ran(program, words, capture):
    """The outputs of a run, and its status."""
    with tempfile.TemporaryDirectory() as folder:
        done = subprocess.run([program, *words, "-r", capture], cwd=folder, stdin=subprocess.DEVNULL, capture_output=True,
                              timeout=120)
        written, path = None, os.path.join(folder, WRITTEN)
        if os.path.exists(path):
            with open(path, "rb") as file:
                written = file.read()
    return {"standard output": done.stdout, "standard error": done.stderr, "status": done.returncode, "file": written}


def differences(programs, words, capture):
    """The differences of a run, a line for each."""
    old, new = (ran(program, words, capture) for program in programs)
    for name, one in old.items():
        other = new[name]
        if one != other and isinstance(one, bytes) and isinstance(other, bytes):
            pairs = itertools.zip_longest(one.split(b"\n"), other.split(b"\n"))
            one, other = next(pair for pair in pairs if pair[0] != pair[1])
        if one != other:
            yield f"{os.path.basename(capture)} {' '.join(words)}: {name}: old {one!r}, new {other!r}"


def main(turns, old, new, *captures):
    programs, runs, count = (os.path.abspath(old), os.path.abspath(new)), [], 0
    with tempfile.TemporaryDirectory() as folder:
        if not captures:
            make_captures(folder)
        paths = [os.path.abspath(path) for given in captures or (folder,) for path in (
            sorted(entry.path for entry in os.scandir(given)) if os.path.isdir(given) else (given,))]
        for (shift, path), (at, chosen) in itertools.product(enumerate(paths), enumerate(itertools.product(*CHOICES))):
            for turn in range(at + shift, at + shift + turns):
                runs.append((programs, " ".join((*chosen, TURNS[turn % len(TURNS)])).split(), path))
        with ThreadPoolExecutor(os.cpu_count()) as pool:
            for found in pool.map(lambda run: list(differences(*run)), runs):
                count += len(found)
                print("".join(line + "\n" for line in found), end="", flush=True)
    print(f"captures={len(paths)} runs={len(runs)} differences={count}")
    return 1 if count else 0


if __name__ == "__main__":
    words = [word for word in sys.argv[1:] if word != "--all"]
    if len(words) < 2:
        sys.exit(__doc__)
    sys.exit(main(len(TURNS) if "--all" in sys.argv else 1, *words))
