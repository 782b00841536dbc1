"""What the user of a file that is refused most likely wants: for `hint`, and for the tools that read captures.

Nothing here is proved.
"""
import re
import shlex

COOKED = {113: 16, 276: 20}
PACKED = {b"\x1f\x8b": "gzip -dc", b"\x28\xb5": "zstd -dc", b"\xfd7": "xz -dc", b"BZ": "bzip2 -dc"}
CAPTURES = (b"\xd4\xc3\xb2\xa1", b"\xa1\xb2\xc3\xd4", b"\x4d\x3c\xb2\xa1", b"\xa1\xb2\x3c\x4d", b"\x0a\x0d\x0d\x0a")


def is_capture(data):
    """Whether a file with these first bytes is pcap or pcapng."""
    return data[:4] in CAPTURES


def stem(name):
    return re.sub(r"\.(pcapng|pcap|cap|gz)$", "", name)


def magic_hint(name, data):
    """What a file is whose first bytes are these, and what brings it into form."""
    word = shlex.quote(name)
    if data[:4] == b"\x0a\x0d\x0d\x0a":
        return f"it is pcapng: editcap -F pcap {word} {shlex.quote(stem(name))}.pcap"
    if data[:2] in PACKED:
        return f"it is compressed: {PACKED[data[:2]]} {word} | ./ctreplay /dev/stdin"
    if data[:4] in (b"\x34\xcd\xb2\xa1", b"\xa1\xb2\xcd\x34"):
        return f"it is an older kind of pcap: editcap -F pcap {word} {shlex.quote(stem(name))}-2.pcap"
    return "it is no capture of a kind that tcpdump writes; file NAME tells what it is"


def unpacked_hint(name, data):
    """The same for a tool, which reads its captures more than once and takes no pipe."""
    if data[:2] in PACKED:
        return f"it is compressed: {PACKED[data[:2]]} {shlex.quote(name)} >{shlex.quote(stem(stem(name)))}.pcap"
    return magic_hint(name, data)


def raw_hint(name, front):
    """Makes raw IP of a capture whose frames have so many bytes in front. Frames of ARP would be read as IP, and so go first."""
    word, only, made = (shlex.quote(text) for text in (name, f"{stem(name)}-ip.pcap", f"{stem(name)}-raw.pcap"))
    return f"tcpdump -r {word} -w {only} ip && editcap -L -C {front} -F pcap -T rawip {only} {made}"


def link_hint(name, number):
    if number in COOKED:
        return f"it was taken with -i any: {raw_hint(name, COOKED[number])}; on a router each packet is then there twice"
    if number == 0:
        return f"it was taken at the loopback interface of macOS or a BSD: {raw_hint(name, 4)}"
    if number in (105, 119, 127):
        return "it is of a wireless interface in monitor mode: take it again from one interface that is not"
    return "link types 1 (Ethernet) and 101 (raw IP) are read: take it again from one interface; see docs/RECIPES.md"


def capture_hint(name, fault, data):
    """What helps where a capture has this fault of docs/FORMATS.md; data are its first bytes."""
    if fault == "bad magic":
        return magic_hint(name, data)
    if fault.startswith("link type"):
        return link_hint(name, int(fault.split()[2]))
    if " cut at " in fault:
        return f"its last record is cut; this keeps those before it: tcpdump -r {shlex.quote(name)} -w {shlex.quote(stem(name))}-whole.pcap"
    if fault == "short header":
        return "it is empty, or its front is cut off; tcpdump -U writes each packet at once"
    return f"it is damaged: tcpdump -r {shlex.quote(name)} shows how far it can be read"
