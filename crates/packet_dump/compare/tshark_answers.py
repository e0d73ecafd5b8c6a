"""Asks tshark about captures, and stores and reads its answers as text.

A line `=` for each capture has its name, a digest, and tshark's message if it reads no packets. A line for each packet
has its layers in the order of tshark's tree, separated by ` / `: name, offset and length in bytes, and the values of
the fields in LAYERS, `-` for a missing one. The first layer that is not in LAYERS is the last, without fields. The
layers of a packet that an ICMP message quotes have `quoted.` before their name. Then follow `malformed`, `short` or
`unreassembled` with the name of a dissector, and `error` with the name of an error that tshark adds to a layer.
"""
import concurrent.futures
import hashlib
import os
import subprocess
import tempfile
import typing
import xml.etree.ElementTree

# Names of the stored fields of each layer, after the layer's name. One that begins with a dot is complete.
LAYERS = {
    "frame": "time_epoch cap_len len interface_id",
    "eth": "dst src type len",
    "sll": "pkttype src.eth etype gretype",
    "null": "",
    "raw": "",
    "vlan": "priority dei id etype len",
    "ieee8021ad": "priority dei id .ieee8021ah.etype",
    "macsec": "TCI.E TCI.C SL PN SCI.system_identifier SCI.port_identifier etype",
    "arp": "opcode src.hw_mac src.proto_ipv4 dst.proto_ipv4 src.hw src.proto dst.proto",
    "ip": "hdr_len len id flags.df flags.mf frag_offset ttl proto checksum.status src dst",
    "ipv6": "flow plen nxt hlim src dst",
    "ipv6.hopopts": "nxt",
    "ipv6.routing": "nxt",
    "ipv6.dstopts": "nxt",
    "ipv6.fraghdr": "nxt ident offset more",
    "ah": "next_header",
    "udp": "srcport dstport length checksum.status",
    "tcp": "srcport dstport seq_raw ack_raw hdr_len flags window_size_value checksum.status options",
    "icmp": "type code checksum.status ident seq mtu redir_gw pointer",
    "icmpv6": "type code checksum.status echo.identifier echo.sequence_number mtu pointer",
}
FIELDS = {layer: [name[1:] if name.startswith(".") else f"{layer}.{name}" for name in names.split()]
          for layer, names in LAYERS.items()}
FIELD_LINES = [", ".join([f"# {layer}: offset, length", *fields]) for layer, fields in FIELDS.items()]
# Fields with the values of TCP options.
OPTION_VALUES = {"tcp.options.mss_val", "tcp.options.wscale.shift", "tcp.options.timestamp.tsval",
                 "tcp.options.timestamp.tsecr", "tcp.options.sack_le", "tcp.options.sack_re"}
SETTINGS = ("ip.defragment:FALSE", "ipv6.defragment:FALSE", "tcp.desegment_tcp_streams:FALSE",
            "tcp.relative_sequence_numbers:FALSE", "ip.check_checksum:TRUE", "tcp.check_checksum:TRUE",
            "udp.check_checksum:TRUE")
ENDS = {"_ws.malformed": "malformed", "_ws.short": "short", "_ws.unreassembled": "unreassembled"}
ERROR, CHECKSUM = "8388608", "16777216"


class Layer(typing.NamedTuple):
    """A layer of tshark's tree: its name, its offset and length in bytes, and its fields by their names in LAYERS."""
    name: str
    start: int
    size: int
    fields: typing.Dict[str, str]


class Capture(typing.NamedTuple):
    """The answers about a capture: a digest of its bytes, tshark's message if it reads no packets, and their layers."""
    digest: str
    error: str
    packets: typing.List[typing.List[Layer]]


def digest_of(path):
    """Returns the first digits of the SHA-256 of a file."""
    with open(path, "rb") as file:
        return hashlib.sha256(file.read()).hexdigest()[:16]


# ---- asking


def shown(element):
    """Returns the value of a field as tshark shows it, without spaces."""
    return element.get("show").replace(" ", "_") or "-"


def options_text(options):
    """Returns the TCP options: the kind of each and its values, separated by colons, or `-` without options."""
    texts = []
    for option in options:
        fields = [(field.get("name"), field.get("show")) for field in option.iter("field")]
        kinds = [value for name, value in fields if name == "tcp.option_kind"]
        if kinds:
            texts.append(":".join(kinds[:1] + [value for name, value in fields if name in OPTION_VALUES]))
    return ",".join(texts) or "-"


def values_of(element):
    """Returns the first value of each field of a layer by name, without the layers within it."""
    found = {}
    for field in element.findall("field"):
        name = field.get("name")
        if name == "tcp.options":
            found[name] = options_text(field)
            continue
        if field.get("show") is not None:
            found.setdefault(name, shown(field))
        for inner, value in values_of(field).items():
            found.setdefault(inner, value)
    return found


def errors_of(element):
    """Returns the names of the errors that tshark adds to a layer and its extension headers, but for checksums."""
    found = []
    for field in element:
        if field.get("name") == "_ws.expert":
            parts = {inner.get("name"): inner.get("show") for inner in field}
            if parts["_ws.expert.severity"] == ERROR and parts["_ws.expert.group"] != CHECKSUM:
                found.append(next(iter(parts)))
        elif field.tag == "field" or not element.get("name").startswith("icmp"):
            found.extend(errors_of(field))
    return found


def layer_text(element, prefix=""):
    """Returns the text of a layer of LAYERS."""
    name, found = element.get("name"), values_of(element)
    values = [found.get(field, "-") for field in FIELDS[name]]
    return " ".join([prefix + name, element.get("pos"), element.get("size"), *values])


def layers_within(element, prefix=""):
    """Yields the texts of a layer, of its extension headers, and of the layers that it quotes."""
    yield layer_text(element, prefix)
    quotes = element.get("name").startswith("icmp")
    for inner in element.findall("proto"):
        if inner.get("name") in LAYERS:
            yield from layers_within(inner, "quoted." if quotes else prefix)


def packet_text(packet):
    """Returns the text of a packet of tshark's tree."""
    texts, ends, known = [], [], True
    for element in packet.findall("proto"):
        name = element.get("name")
        if name in ENDS:
            ends.append(f"{ENDS[name]} {element.get('showname').split(': ', 1)[1].rstrip(']')}")
        elif name in LAYERS and known:
            texts.extend(layers_within(element))
            ends.extend(f"error {error}" for error in errors_of(element))
        elif known and name != "geninfo":
            texts.append(name)
            known = False
    return " / ".join(texts + ends)


def asked(path):
    """Returns the texts of a capture's packets, and tshark's message if it fails."""
    command = ["tshark", "-r", path, "-n", "-T", "pdml"]
    for setting in SETTINGS:
        command += ["-o", setting]
    with tempfile.TemporaryDirectory() as folder:
        environment = {**os.environ, "WIRESHARK_CONFIG_DIR": folder}
        run = subprocess.run(command, capture_output=True, check=False, env=environment)
    reported = [line for line in run.stderr.decode().splitlines() if not line.startswith("Running as user")]
    error = " ".join(reported).replace(path, os.path.basename(path)) if run.returncode else ""
    tree = xml.etree.ElementTree.fromstring(run.stdout) if run.stdout else ()
    return [packet_text(packet) for packet in tree], error


def ask(paths, to):
    """Asks tshark about captures, and writes its answers to the file `to`."""
    run = subprocess.run(["tshark", "--version"], capture_output=True, check=True, text=True)
    with concurrent.futures.ThreadPoolExecutor(os.cpu_count()) as workers, open(to, "w", encoding="utf-8") as file:
        print(f"# {run.stdout.splitlines()[0]} Asked with -n and {' '.join(SETTINGS)}.", file=file)
        print(*FIELD_LINES, sep="\n", file=file)
        for path, (packets, error) in zip(paths, workers.map(asked, paths)):
            print(f"= {os.path.basename(path)} {digest_of(path)} {error}".rstrip(), *packets, sep="\n", file=file)


# ---- reading


def layer_of(text):
    """Returns a layer of a stored line."""
    words = text.split(" ")
    name = words[0].replace("quoted.", "")
    if name not in FIELDS:
        return Layer(text, 0, 0, {})
    values = {field: value for field, value in zip(LAYERS[name].split(), words[3:]) if value != "-"}
    return Layer(words[0], int(words[1]), int(words[2]), values)


def read(path):
    """Returns the stored answers by the name of the capture. Raises ValueError if tshark was asked for other fields."""
    with open(path, encoding="utf-8") as file:
        _, *lines = file.read().splitlines()
    if lines[:len(FIELD_LINES)] != FIELD_LINES:
        raise ValueError(f"{path}: answers with other fields than LAYERS, ask again")
    captures, packets = {}, []
    for line in lines[len(FIELD_LINES):]:
        if line.startswith("= "):
            name, digest, *error = line[2:].split(" ", 2)
            packets = []
            captures[name] = Capture(digest, " ".join(error), packets)
        else:
            packets.append([layer_of(text) for text in line.split(" / ")])
    return captures
