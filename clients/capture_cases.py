#!/usr/bin/env python3
"""Writes the cases of captures: what `match` and `run` say of those in examples/captures, whole, cut, and with lengths that lie.

    clients/capture_cases.py > crates/cases_tool/data/captures.cases

It needs tshark (Debian's package), whose display filters say which messages a rule has to match: the captures were written by
dbus-monitor and busctl. Where a cut or changed file ends is worked out here from the drafts of both formats.
"""
import hashlib
import pathlib
import struct
import subprocess

CAPTURES = pathlib.Path(__file__).resolve().parent.parent / "examples" / "captures"

HEAD = """# Captures. clients/capture_cases.py writes this file: which messages match is what tshark says by a display filter.
#
# Columns, divided by tabs: the case's name; commands, divided by ` ; `, whose words are divided by `|` (so `||` has an
# empty word between); two files, as NAME=CONTENT, `-` for standard input, or nothing for no file; what is wanted.
# Wanted is, command by command: standard output, then after a `!` what is written to standard error, then the status in
# brackets. In a column \\t, \\n, \\r, \\\\ and \\xHH stand for a tab, the line's end, a carriage return, a backslash and the
# byte HH, and \\{3*TEXT\\} for TEXT three times."""

# a rule, and the display filter that says the same of messages without a destination
RULES = [
    ("everything", "", "dbus"),
    ("signals", "type='signal'", "dbus.message_type == 4"),
    ("member", "member='Changed'", 'dbus.member == "Changed"'),
    ("path", "path='/com/example/Weather'", 'dbus.path == "/com/example/Weather"'),
    ("path_namespace", "path_namespace='/com/example/Weather'", 'dbus.path matches "^/com/example/Weather(/|$)"'),
    ("first_argument", "interface='com.example.Weather',arg0='Kiel'", 'dbus.interface == "com.example.Weather" && dbus.type.string == "Kiel"'),
    ("nothing", "member='Unknown'", 'dbus.member == "Unknown"'),
]


# a program that accepts signals, with verdict 7, and ends after three steps
SIGNALS = "ld [4]\njeq #4, yes, no\nyes: ret #7\nno: ret #0\n"


def frames(name, display):
    """Number, captured and original length of the frames that a display filter shows."""
    command = ["tshark", "-r", str(CAPTURES / name), "-Y", display, "-T", "fields", "-e", "frame.number", "-e", "frame.cap_len", "-e", "frame.len"]
    lines = subprocess.run(command, check=True, capture_output=True, text=True).stdout.splitlines()
    return [tuple(int(word) for word in line.split("\t")) for line in lines]


def spelled(data):
    return "".join(chr(byte) if 32 < byte < 127 and byte not in b"\\" else f"\\x{byte:02x}" for byte in data)


def case(name, words, data, output, error, status, command="match", program=""):
    wanted = output + ("!" if error else "") + error + f"[{status}]"
    content = data if isinstance(data, str) else spelled(data)
    columns = [name, "|".join(["dbusfan", command, *words]), "F=" + content, program, wanted]
    print("\t".join(column.replace("\n", "\\n") for column in columns))


def program_cases(name, data, every, cut, notes):
    accepted = {number for number, _, _ in frames(name, "dbus.message_type == 4")} - cut
    lines = [f"{number} verdict {7 if number in accepted else 0} steps 3\n" for number, _, _ in every if number not in cut]
    count = f"{len(accepted)} of {len(lines)} accepted\n"
    status = 0 if accepted else 1
    case(f"{name}.program.each", ["P", "F", "--each"], data, "".join(lines) + count, notes, status, "run", "P=" + SIGNALS)
    case(f"{name}.program.any", ["P", "F"], data, count, notes, status, "run", "P=" + SIGNALS)


def whole_files():
    for name in ("weather.pcap", "weather.pcapng", "cut.pcapng"):
        data = (CAPTURES / name).read_bytes()
        every = frames(name, "frame")
        cut = {number for number, captured, length in every if captured < length}
        notes = "".join(f"dbusfan: packet Cut at {number}\n" for number in sorted(cut))
        print(f"\n# {name}")
        for word, rule, display in RULES:
            matches = {number for number, _, _ in frames(name, f"({display}) && !dbus.destination")} - cut
            lines = [f"{number} {'match' if number in matches else 'no match'}\n" for number, _, _ in every if number not in cut]
            status = 0 if matches else 1
            case(f"{name}.{word}.each", [rule, "F", "--each"], data, "".join(lines) + f"{len(matches)} of {len(lines)} match\n", notes, status)
            case(f"{name}.{word}.any", [rule, "F"], data, "match\n" if matches else "no match\n", notes, status)
        program_cases(name, data, every, cut, notes)


def short(name, data, ends):
    """A file cut after each of its bytes; `ends` are the places where it may end, with the messages until there."""
    print(f"\n# The first message of {name}, cut after each byte.")
    for length in range(len(data)):
        until = [count for end, count in ends if end <= length]
        count = until[-1] if until else 0
        fault = "" if any(end == length for end, _ in ends) else "dbusfan: capture Short\n"
        output = "".join(f"{number + 1} match\n" for number in range(count)) + f"{count} of {count} match\n"
        case(f"{name}.{length}_bytes", ["", "F", "--each"], data[:length], output, fault, 2 if fault else 0 if count else 1)


def bad(name, data, fault, count=0):
    output = "".join(f"{number + 1} match\n" for number in range(count)) + f"{count} of {count} match\n"
    case(name, ["", "F", "--each"], data, output, f"dbusfan: capture {fault}\n", 2)


def with_word(data, at, number):
    return data[:at] + struct.pack("<I", number) + data[at + 4:]


def pcap_files():
    whole = (CAPTURES / "weather.pcap").read_bytes()
    records, at = [], 24
    while at < len(whole):
        records.append(at)
        at += 16 + struct.unpack_from("<I", whole, at + 8)[0]
    first = records[2]
    data = whole[:24] + whole[first:records[3]]
    short("weather.pcap", data, [(24, 0), (len(data), 1)])
    print("\n# A pcap file whose numbers lie.")
    bad("pcap.other_link_type", with_word(data, 20, 1), "LinkType 1")
    bad("pcap.user_link_type", with_word(data, 20, 147), "LinkType 147")
    bad("pcap.version", with_word(data, 4, 5 << 16 | 2), "Version")
    bad("pcap.longest_length", with_word(data, 24 + 8, 0xFFFFFFFF), "RecordLength")
    bad("pcap.length_above_a_message", with_word(data, 24 + 8, 2 ** 27 + 1), "RecordLength")
    bad("pcap.length_beyond_the_file", with_word(data, 24 + 8, len(data) - 24 - 16 + 1), "Short")
    bad("pcap.garbage_after_a_record", data + b"\xff" * 16, "RecordLength", 1)
    case("pcap.other_link_type.program", ["P", "F", "--each"], with_word(data, 20, 1), "0 of 0 accepted\n", "dbusfan: capture LinkType 1\n", 2, "run", "P=" + SIGNALS)
    bad("zeros", b"\0" * 64, "Magic")
    bad("hexadecimal_text", b"6c04", "Magic")


def pcapng_files():
    whole = (CAPTURES / "weather.pcapng").read_bytes()
    blocks, at = [], 0
    while at < len(whole):
        kind, length = struct.unpack_from("<II", whole, at)
        blocks.append((kind, at, length))
        at += length
    packet = next(index for index, (kind, _, _) in enumerate(blocks) if kind == 6)
    data = whole[:blocks[packet][1] + blocks[packet][2]]
    ends = [(start + length, 1 if index == packet else 0) for index, (_, start, length) in enumerate(blocks[:packet + 1])]
    short("weather.pcapng", data, ends)
    print("\n# A pcapng file whose numbers lie.")
    interface, last = blocks[1][1], blocks[packet][1]
    bad("pcapng.byte_order", with_word(data, 8, 0x12345678), "ByteOrder")
    bad("pcapng.version", with_word(data, 12, 2), "Version")
    bad("pcapng.section_of_odd_length", with_word(data, 4, blocks[0][2] + 1), "BlockLength")
    bad("pcapng.section_of_another_length_at_its_end", with_word(data, blocks[0][2] - 4, 12), "BlockLength")
    bad("pcapng.block_of_length_0", with_word(data, last + 4, 0), "BlockLength")
    bad("pcapng.block_of_the_longest_length", with_word(data, last + 4, 0xFFFFFFFC), "BlockLength")
    bad("pcapng.unknown_interface", with_word(data, last + 8, 7), "Interface")
    bad("pcapng.packet_beyond_its_block", with_word(data, last + 20, blocks[packet][2]), "RecordLength")
    ethernet = data[:interface + 8] + struct.pack("<H", 1) + data[interface + 10:]
    case("pcapng.other_link_type", ["", "F", "--each"], ethernet, "0 of 0 match\n", "dbusfan: packets of other link types: 1\n", 1)


def noise_files():
    """64 KiB of noise: 256 bytes of hashes, 256 times, alone and after what a capture begins with."""
    once = b"".join(hashlib.sha256(bytes([number])).digest() for number in range(8))
    noise = "\\{256*" + spelled(once) + "\\}"
    pcap, pcapng = ((CAPTURES / name).read_bytes() for name in ("weather.pcap", "weather.pcapng"))
    section = pcapng[:struct.unpack_from("<I", pcapng, 4)[0]]
    assert once[:4] not in (pcap[:4], pcap[3::-1], pcapng[:4])
    assert struct.unpack_from("<I", once, 8)[0] > 2 ** 27
    assert struct.unpack_from("<I", once, 4)[0] % 4
    print("\n# 64 KiB of noise.")
    bad("noise", noise, "Magic")
    bad("noise.after_the_header_of_a_pcap", spelled(pcap[:24]) + noise, "RecordLength")
    bad("noise.after_the_section_of_a_pcapng", spelled(section) + noise, "BlockLength")
    case("noise.without_each", ["", "F"], noise, "", "dbusfan: hex\n", 2)
    case("noise.program", ["P", "F", "--each"], noise, "0 of 0 accepted\n", "dbusfan: capture Magic\n", 2, "run", "P=" + SIGNALS)


print(HEAD)
whole_files()
pcap_files()
pcapng_files()
noise_files()
