"""Worked values: scripts with the output that the rules give for them, computed by hand. `python3 rows.py` is silent
where the models agree."""

import feed_scripts
from feed import feed
from once import violations
from sample import sample
from script import LAST_MOMENT, print_, read
from serve import Datagram, serve
from world import play, replay

P = "01010600 0005 A003800105"
P_FILE = "0005 60 20 A003800105"
HEAD = "00000034 60 60 2E800800 2E800800"
ADDRESS = "00000000000000000000FFFF0A000001 00000000 00 0000 0000"
AT = ("at 1709164800",)
PLAIN = f"4EF0 0010 0000 7E01 FC000B {P}"
TEST = "4EF0 0005 0000 7E02 FC0000"


def text(*lines):
    return "".join(line + "\n" for line in lines).encode()


def fed(*lines, sender="10.0.1.1:40001"):
    """What a feed writes for these lines, in which hexadecimal alone is a datagram."""
    script = [line if line.split()[0].islower() else f"in {sender} {line}" for line in lines]
    out, status, error = feed(text(*script, "end"))
    return [line.replace("4EF1000700", "") for line in out.decode().splitlines()] + ([error.decode()] if status else [])


def reply(number, cause):
    return f"{number:02X}01{cause:02X}FD000200{number:02X}"


def gateway(entries, records, held=0, stranded=0):
    return f"gateway 1 entries {entries} records {records} held {held} stranded {stranded}"


def file_line(name, *octets):
    return f"file 1 {name}.cdr " + "".join(octets).replace(" ", "")


FILE = file_line("00-0000000001", "0000003D", HEAD, "00000001 00000001 04", ADDRESS, P_FILE)


def expect(name, found, *wanted):
    if list(found) != list(wanted):
        print(f"{name}:\n  found  {found}\n  wanted {list(wanted)}")


def causes(*lines, **options):
    """The causes of the replies to these lines, in decimal."""
    return [int(line[4:6], 16) for line in fed(*lines, **options) if line[6:12] == "FD0002"]


def feeds():
    expect("one packet", fed(*AT, PLAIN), reply(0, 128), FILE, gateway(3, 1))
    expect("a repeat", fed(*AT, PLAIN, PLAIN), reply(0, 128), reply(0, 253), FILE, gateway(3, 1))
    expect("test first", fed(TEST, TEST, PLAIN), reply(0, 128), reply(0, 128), reply(0, 255), gateway(2, 0))
    expect("test after", causes(PLAIN, TEST), 128, 253)
    held = f"4EF0 0010 0007 7E02 FC000B {P}"
    more = ["4EF0 0007 0008 7E04 F90002 0007", "4EF0 0007 0009 7E04 F90002 0007", "4EF0 0007 000A 7E03 FA0002 0007"]
    expect("held", causes(held, *more), 128, 128, 252, 254)
    lists = ["4EF0 0009 0008 7E04 F90004 00070008", "4EF0 0005 0009 7E04 F90000"]
    expect("lists", fed(held, *lists), reply(7, 128), reply(8, 254), reply(9, 254), gateway(2, 0, 1))
    numbers = [f"4EF0 0010 {number} 7E01 FC000B {P}" for number in ("0000", "FFFF", "0001", "FFFE")]
    expect("numbers", [fed(*numbers)[-1]], gateway(6, 4))
    expect("versions", fed("0F F0 0000 0005", "0F 03 0000 0005")[:2], "4E0300000005", "- Stray")
    drops = ["4EF0000000", "5E0100000000", "4E0100050000", "4E6300000000", "4E0500000000", "4E0200000001"]
    drops += ["4E0100000005", "4E0100000005 FFFF"]
    words = ["- Short", "- NotPrime", "- Cut", "- UnknownType", "- Stray", "- Malformed"]
    expect("drops", fed(*drops)[:8], *words, *["4E02000200050E01"] * 2)
    bad = ["4EF0 0017 0000 7E01 FC0012 02010600 0005A003800105 0005 3080040105", "4EF0 0003 0000 FC0000"]
    bad += ["4EF0 0005 0000 7E05 FC0000", "4EF0 0002 0000 0200", "4EF0 0006 0001 7E02 FC0001 00"]
    bad += ["4EF0 0007 0002 7E02 FC0002 0001"]
    expect("refusals", causes(*bad), 177, 202, 201, 193, 128, 201)
    largest = "4EF0 FFDD 0000 7E01 FCFFD8 01010600 FFD2 0482FFCE" + "00" * 65_486
    expect("the largest", [len(fed(largest)[1]) - len("file 1 00-0000000001.cdr ")], 2 * 65_546)
    many = f"4EF0 {5 + 4 + 255 * 7:04X} 0000 7E01 FC{4 + 255 * 7:04X} FF010600" + "0005A003800105" * 255
    expect("many records", [fed(many)[-1]], gateway(3, 255))
    room = ["reserve 234", held, "4EF0 0005 0008 7E02 FC0000", "4EF0 0005 0009 7E02 FC0000"]
    full = fed(*room, "4EF0 0007 000A 7E04 F90002 0007")
    expect("room", full[:4] + full[5:], reply(7, 128), reply(8, 128), reply(9, 199), reply(10, 128), gateway(5, 1))
    expect("nodes", causes(*[f"in 10.0.1.{node}:1 {PLAIN}" for node in range(65)]), *[128] * 64, 199)


def closings():
    two = "4EF0 0017 0000 7E01 FC0012 02010600 0005A003800105 0005A003800106"
    for size, length, reason in ((70, "00000046", "01"), (71, "00000046", "03")):
        line = fed("limit records 2", f"limit size {size}", "offset -03:30", "at 1709251140", two)[1]
        times = "00000034 60 60 2ED1D0DE 2ED1D0DE 00000002 00000001".replace(" ", "")
        expect(f"size {size}", [line[25:33], line[33:79]], length, times + reason)
    change = fed(*AT, PLAIN, f"4EF0 0010 0001 7E01 FC000B {P.replace('0600', '0700')}")
    expect("change", [change[2][77:79], change[3][41:45], change[3][77:79]], "05", "8080", "04")
    later = [f"4EF0 0010 000{n} 7E01 FC000B {P.replace('0600', version)}" for n, version in enumerate(("0A00", "0B00"))]
    for profile, reasons in ((1, ["04"]), (2, ["05", "04"])):
        lines = fed(f"profile {profile}", *AT, *later)[2:-1]
        expect(f"profile {profile}", [line[77:79] for line in lines], *reasons)
    extended = fed("profile 2", *AT, later[1])[1]
    head = "00000040 00000036 E0 E0 2E800800 2E800800 00000001 00000001 04 00000000000000000000FFFF0A000001 00000000 00"
    whole = (head + "0000 0000 01 01 0005 E0 20 01 A003800105").replace(" ", "")
    expect("extended", [extended], "file 1 00-0000000001.cdr " + whole)
    late = fed("limit open 60", *AT, PLAIN, "at 1709164860", "mark")
    expect("open time", [late[1][77:79], late[-1]], "02", gateway(4, 1))
    for tag, name in (("A0", "05"), ("80", "02")):
        ruled = fed(f"rule {tag} 1 5", "rule * * 2", *AT, PLAIN)[1]
        expect(f"rule {tag}", [ruled], FILE.replace("00-", name + "-", 1))


def refused(*lines):
    out, status, error = feed(text(*lines))
    return [out, status, error.decode().strip()]


def paths_and_faults():
    paths = ["4E0400000003", "4E02000200030E05", "4E02000200030E05", PLAIN, "4E02000200030E06", PLAIN]
    alive = "4E0500000003"
    expect("paths", fed(*paths)[:6], "4E0100000003", alive, alive, reply(0, 128), alive, reply(0, 128))
    expect("end alone", fed(), gateway(1, 0))
    expect("no end", refused("mark", "mark", "mark"), b"", 2, "cgf: input 4: NoEnd")
    expect("a word", refused("frob 1"), b"", 2, "cgf: input 1: Word")
    expect("a rule", refused("rule A0 1 16"), b"", 2, "cgf: input 1: Rule")
    expect("earlier", refused("at 5", "at 4", "end"), b"", 2, "cgf: input 2: Earlier")


ALIVE = ("tick 1", "flow", "flow", "flow", "commit 1", "flow")
SUBMIT = "submit 1 1 0600 A003800105"


def played(*lines):
    """What a replay writes for these lines and `end`, without messages and files; records must be filed once."""
    world, fault = play(read(text(*lines, "end"), "replay"))
    expect("once", violations(world))
    shown = [line for line in world.written if line[:2] != "m " and line[:5] != "file "]
    return shown + ([f"{fault.place}: {fault.kind}"] if fault else [])


def messages(*lines):
    """The causes of the responses that a replay of these lines sends."""
    written = play(read(text(*lines, "end"), "replay"))[0].written
    return [int(line.split()[4][14:16], 16) for line in written if " 4EF1" in line]


def stops():
    for call in range(1, 5):
        arms = (f"arm 1 {call} old", False), (f"arm 1 {call} new", call >= 3), (f"fail 1 {call}", call == 4)
        for armed, is_kept in arms:
            lines = (*ALIVE, SUBMIT, "tick 1", "flow", armed, "commit 1")
            again = ("tick 1", "flow", "commit 1", "flow")
            opened = ("open 1", *again) if "arm" in armed else ("flow", *again)
            found = played(*lines, *opened)
            expect(armed, found[1:-2], "stopped 1" if "arm" in armed else "fault 1", "resolved 1.1", "done 1.1")
            expect(armed, found[-2:-1], gateway(4 + ("arm" in armed), 1))
            first = [204] if "fail" in armed else []
            expect(armed, messages(*lines, *opened), *first, 253 if is_kept else 128)


ROW = """tick 1|flow|flow|flow|commit 1|commit 2|flow|submit 1 1 0600 A003800105|tick 1|deliver 9|commit 1
redirect 1 63|deliver 11|tick 1|deliver 13|commit 2|deliver 14|tick 1|deliver 15|deliver 16|tick 1|deliver 17
commit 2|deliver 18"""
MIRRORED = """tick 1|flow|flow|flow|commit 1|commit 2|flow|submit 1 1 0600 A003800105|tick 1|redirect 1 63
deliver 10|tick 1|deliver 12|commit 2|deliver 13|tick 1|deliver 14|commit 1|deliver 15|tick 1|deliver 16
commit 2|deliver 17|deliver 9"""

THREE = """tick 1|flow|flow|flow|commit 1|commit 2|commit 3|flow|submit 1 1 0600 A003800105|tick 1|redirect 1 63
deliver 14|tick 1|redirect 2 63|deliver 17|tick 1|deliver 19|commit 3|deliver 20|tick 1|deliver 21|commit 1
deliver 22|tick 1|deliver 23|commit 3|deliver 25|deliver 16|commit 2|deliver 24|deliver 27|tick 1|deliver 28
commit 2|deliver 29"""


def stories():
    two = ("gateways 2", "nodes 1", "at 1709164800")
    ended = ["packet 1.1", "resolved 1.1", "done 1.1"]
    story, mirrored = (each.replace("\n", "|").split("|") for each in (ROW, MIRRORED))
    second = "gateway 2 entries {} records {} held 0 stranded 0"
    node = "node 1 packets 1 resolved 1 done 1"
    expect("the story", played(*two, *story), *ended, gateway(4, 1), second.format(4, 0), node)
    expect("the mirrored story", played(*two, *mirrored), *ended, gateway(3, 0), second.format(5, 1), node)
    expect("its answers", messages(*two, *mirrored), 128, 128, 128, 255)
    expect("three gateways", played("gateways 3", *THREE.replace("\n", "|").split("|")), *ended, gateway(3, 0),
           second.format(4, 0), "gateway 3 entries 5 records 1 held 0 stranded 0", node)
    alive = ("tick 1", "flow", "flow", "flow", "commit 1", "commit 2")
    old = ["gateways 2", *alive, "flow", SUBMIT, "tick 1", "redirect 1 63", "deliver 10", "tick 1", "deliver 12"]
    old += ["commit 2"]
    old += ["halt 1", "start 1", "tick 1", *(f"deliver {number}" for number in range(14, 20)), "commit 1", "commit 2"]
    old += ["deliver 20", "deliver 21", SUBMIT, "tick 1", "deliver 22", "commit 1", "deliver 23", "deliver 9"]
    shown = played(*old)[-4:]
    wanted = ("expired 9", gateway(5, 1), second.format(4, 0)[:-1] + "1", "node 1 packets 2 resolved 1 done 1")
    expect("an old copy", shown, *wanted)
    torn = [*ALIVE, SUBMIT, "tick 1", "halt 1", "start 1", "tick 1", "deliver 6", "deliver 7", "deliver 8"]
    torn += ["fail 1 4", "commit 1"]
    wanted = ("fault 1", "expired 5", gateway(3, 0), "node 1 packets 1 resolved 0 done 0")
    expect("a torn path", played(*torn, "deliver 5")[1:], *wanted)
    group = [*ALIVE, SUBMIT, SUBMIT, SUBMIT, "tick 1", "flow", "fail 1 5", "commit 1", "flow"]
    expect("group commit", messages(*group), 128, 128, 128)


def samples():
    lines = sample(7, 4, 3, 2000)[0]
    expect("sample", [len(lines)], 22_665)
    world, _ = play(lines)
    sums = [sum(int(line.split()[at]) for line in world.written[-4:]) for at in (3, 5, 7)]
    expect("sample", [len(world.messages), *sums], 13_062, 2000, 2000, 2000)
    expect("once", violations(world))
    expect("printed", [read(print_(lines), "replay") == lines], True)
    refused_line = replay(text(*ALIVE, *["tick 1"] * 3, *["# "] * 20, "deliver 9", "end"))
    expect("no message", [refused_line[2].decode()], "cgf: input 30: NoMessage\n")


WORDS = ("serve", "10.0.0.1", "3386", "4", "16777216", "area", "cdrs")
NODES = (10 << 24 | 257, 40_001), (10 << 24 | 258, 40_001)


def served(*heard, file=None, words=WORDS, settings=("end",)):
    """How a run of `serve` ends that hears these datagrams, each a sender, octets and a moment, in a folder that is
    empty."""
    return serve(words, text(*settings), file, {}, [Datagram(*each) for each in heard])


def servings():
    plain = bytes.fromhex(PLAIN)
    ended = served((NODES[0], plain), (NODES[0], plain), (NODES[1], plain))
    expect("serving", [reply[7] for reply in ended.replies], 128, 253, 128)
    expect("serving", [ended.status, ended.output.decode()], 0, gateway(4, 2) + "\n")
    again = serve(WORDS, b"end", ended.area, ended.folder, [Datagram(NODES[1], plain)])
    expect("served again", [again.replies[0][7], again.output.decode()], 253, gateway(5, 2) + "\n")
    expect("served again", [again.folder], ended.folder)
    small = ("serve", "10.0.0.1", "3386", "1", "1000", "area", "cdrs")
    for file, place in ((b"\xff" + bytes(999), 0), (b"C\xff" + bytes(998), 1), (again.area[:1000], 12)):
        ended = served(file=file, words=small)
        expect("no journal", [*ended[:3], ended.area == file], 6, b"", b"cgf: store %d\n" % place, True)
    for line in ("reserve 500", "at 5", "mark", "renew 1000", "gateways 1", "frob"):
        expect(line, served(settings=(line, "end"))[:4], 2, b"", b"cgf: input 1: Word\n", None)
    for at, word in ((1, "10.0.0"), (2, "65536"), (3, "0"), (4, "99"), (5, "-x"), (6, "-")):
        status = served(words=[*WORDS[:at], word, *WORDS[at + 1 :]]).status
        expect(f"the word {word}", [status], 0 if word == "-" else 1)


def fed_and_served():
    """A feed and `serve` answer the same datagrams alike, and file the same."""
    for number in range(40):
        made = feed_scripts.Feed(number)
        settings = [line for line in (made.setting() for _ in range(6)) if not line.startswith("reserve")]
        nodes = [(10 << 24 | net << 8 | node, 40_001) for net, node in made.senders]
        heard = [(made.pick(*nodes), made.mutated(made.datagram())) for _ in range(20)]
        heard = [(node, octets, min(made.moment + 60 * at, LAST_MOMENT)) for at, (node, octets) in enumerate(heard)]
        lines = [f"in 10.0.{node >> 8 & 255}.{node & 255}:{port} {octets.hex()}" for (node, port), octets, _ in heard]
        moments = [f"at {moment}" for *_, moment in heard]
        script = [*settings, *(line for pair in zip(moments, lines) for line in pair), "end"]
        written = feed(text("reserve 2000", *script))[0].decode().splitlines()
        ended = served(*heard, words=[*WORDS[:4], "2000", *WORDS[5:]], settings=[*settings, "end"])
        found = [reply.hex().upper() if reply else "-" for reply in ended.replies]
        found += [f"file 1 {name} {octets.hex().upper()}" for name, octets in ended.folder.items()]
        wanted = [line if line[:2] != "- " else "-" for line in written]
        expect(f"feed {number}", found + ended.output.decode().splitlines(), *wanted)


if __name__ == "__main__":
    feeds()
    closings()
    paths_and_faults()
    stops()
    stories()
    samples()
    servings()
    fed_and_served()
