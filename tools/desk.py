"""The night desk's command: asks the proved calls what a body or a frame says, through the C interface, and puts Kafka's names to the numbers.

Everything that is judged, is judged there. Here arguments are parsed, the bytes of the body found, names looked up, and lines laid out."""
import itertools
import json
import pathlib
import re
import shutil
import subprocess
import sys

ROOT = pathlib.Path(__file__).resolve().parent.parent
USAGE = """usage: ./befrolan read MESSAGE VERSION [FILE]   a body, read from its front as the Rust reads it
       ./befrolan whole VERSION [FILE]          an ApiVersions answer, read whole, as a gateway must
       ./befrolan agree VERSION [FILE]          the same, and the versions to speak with that broker
       ./befrolan host NODE VERSION [FILE]      the host of a node, from a Metadata answer
       ./befrolan frame request NUMBER [FILE]   a frame with request header NUMBER, 1 or 2: the header, and where the body is
       ./befrolan frame response NUMBER [FILE]  the same with response header NUMBER, 0 or 1
       ./befrolan night                         the night that cannot come: bodies of every layout at every version
MESSAGE: api-versions, api-versions-request, metadata or fetch.
FILE, or standard input: a body without frame and header, as raw bytes or plain hex, which is two digits for each byte with
spaces, lines and # comments between bytes. Input with a byte that no text has is raw bytes; text must be plain hex.
Options: --json; --raw or --hex, which say what the input is; --frame where the body is in a frame, with the header that the
message has at that version, or --frame=NUMBER with another one; --body where a body is taken for a frame.
Exit: 0 accepted, 1 refused or not found, 2 not asked in this way, no body given, or not built."""
MEANS = dict(line.split(" ", 1) for line in (ROOT / "data/refusals.txt").read_text().splitlines())
# For each body that can be read: its call (docs/ANSWERS.md), and how many cells a row of each table has.
READS = {"api-versions": ("response_read", (4, 3)), "api-versions-request": ("request_read", (3,)),
         "metadata": ("metadata_read", (7, 5, 5, 1, 1)), "fetch": ("fetch_read", (3, 7, 2))}
WHOLE = ("response_read_whole", (4, 3))
FRAMES = {"request": ("request_frame_read", (3,)), "response": ("response_frame_read", (3,))}
# Each message's API key, and which kind of header it has.
SENT = {"api-versions": (18, "response"), "api-versions-request": (18, "request"), "metadata": (3, "response"), "fetch": (1, "response")}
# The most bytes that a message may have. One byte more is enough of it to be refused for its size.
MOST = 1048576
# The bytes of a frame's size, which it does not count; what is after the longest frame has no part in it.
SIZE = 4
# No row takes more cells than this for each of its bytes in the body: a tag with no data has 3 cells for 2 bytes, and others have fewer.
CELLS_A_BYTE = 2
APIS = {18: "ApiVersions", 3: "Metadata", 1: "Fetch"}
# A field that the version does not have.
ABSENT = object()
# These are about the message as a whole, and not about a byte of it.
PLACELESS = (1, 2)
NOT_TEXT = 7
BYTES_END, BAD_SIZE = 3, 14
# The first two bytes of characters in more bytes than they need.
OVERLONG = {(0xE0, second) for second in range(0x80, 0xA0)} | {(0xF0, second) for second in range(0x80, 0x90)}
SOME_MINUTES = "the first time this takes some minutes"


class Usage(Exception):
    """The command was not asked as it can be."""


class NoBody(Exception):
    """The input is no body: what it is, where that is seen, and what to do."""


# ---- the proved calls, and the program of the night


def answering(cases):
    """The words of the answer to each case. tools/answers builds the program that asks the library, where that was not done yet."""
    need_kit()
    if not (ROOT / "target/c/answers").exists():
        print(f"befrolan: proving and building the library; {SOME_MINUTES}", file=sys.stderr)
    words = [ROOT / "tools/answers", str(CELLS_A_BYTE * (MOST + SIZE))]
    made = subprocess.run(words, input="".join(case + "\n" for case in cases), stdout=subprocess.PIPE, text=True)
    answers = [line.split() for line in made.stdout.splitlines()]
    if made.returncode != 0 or len(answers) != len(cases):
        sys.exit(fail(f"the library could not be asked: tools/answers ended with {made.returncode}"))
    for said in answers:
        if said[0] not in ("ok", "no") or said[-1] in ("broken", "stray"):
            sys.exit(fail(f"the library was asked, and answered: {said[0]} .. {said[-1]}"))
    return answers


def wording(read, version, body, most=MOST + 1):
    """The case of a read, with room for the rows of any body of this length."""
    call, widths = read
    body = body[:most]
    rooms = [str(CELLS_A_BYTE * len(body))] * len(widths)
    return " ".join([call, str(version), *rooms, body.hex() or "-"])


def ask(read, version, body, most=MOST + 1):
    """The words of a refusal, or of the own row with `ok` and the bytes used in front; and the rows of each table."""
    *words, _ = answering([wording(read, version, body, most)])[0]
    first = len(words) - len(read[1])
    return words[:first], [rows(table, width) for table, width in zip(words[first:], read[1])]


def rows(table, width):
    """The rows of a table, as they are taken from it; nobody takes more than were filled."""
    return zip(*[cells(table)] * width)


def cells(table):
    for piece in table.split(","):
        cell, _, times = piece.partition("*")
        yield from itertools.repeat(int(cell), int(times or 1))


def built(program):
    """Proves and builds a program, where it or a source is newer than the last time."""
    folder = ROOT / "crates" / program
    binary = folder / "out" / program
    sources = (f for part in ("src", "specs", "proofs") for f in (ROOT / "crates").glob(f"*/{part}/**/*"))
    newest = max(f.stat().st_mtime for f in [ROOT / "crates.txt", *sources])
    if binary.exists() and newest <= binary.stat().st_mtime:
        return binary
    need_kit()
    print(f"befrolan: proving and building {program}; {SOME_MINUTES}", file=sys.stderr)
    made = subprocess.Popen(["rt", "run"], cwd=folder, stdin=subprocess.DEVNULL, stdout=subprocess.DEVNULL, stderr=subprocess.PIPE, text=True)
    last = []
    for line in made.stderr:
        last = (last + [line])[-20:]
        if line.startswith("rt: "):
            print("  " + line.rstrip(), file=sys.stderr, flush=True)
    if made.wait() != 0:
        sys.stderr.writelines(last)
        sys.exit(fail(f"{program} was not built"))
    return binary


def need_kit():
    if shutil.which("rt") is None:
        sys.exit(fail("the Rattle kit is not here: there is no command rt"))


def fail(why):
    print("befrolan: " + why, file=sys.stderr)
    return 2


def run(program):
    made = subprocess.run([ROOT / "tools/x86-run", built(program)], capture_output=True)
    if made.returncode != 0:
        sys.stderr.write(made.stderr.decode(errors="replace"))
        sys.exit(fail(f"{program} ended with {made.returncode}"))
    return made.stdout.decode("ascii").splitlines()


# ---- what a body says, under the guide's names. A field that the version lacks is left out; null is None.


def row(**fields):
    return {name: value for name, value in fields.items() if value is not ABSENT}


def number(word):
    return ABSENT if word == "absent" else int(word)


def text(word):
    """A text of the own row, which an answer shows with its bytes."""
    if word in ("absent", "null"):
        return ABSENT if word == "absent" else None
    _, _, pieces = word.partition(":")
    return b"".join(some_bytes(piece) for piece in pieces.split(",") if piece != "-").decode()


def some_bytes(piece):
    digits, _, times = piece.partition("*")
    return bytes.fromhex(digits) * int(times or 1)


def text_at(body, start, length):
    return body[start : start + length].decode()


def cut(table, count):
    """Takes so many rows from the front."""
    return list(itertools.islice(table, count))


def tagged(body, tags, count):
    if count < 0:
        return ABSENT
    return [row(tag=tag, data=body[start : start + length].hex()) for tag, start, length in cut(tags, count)]


def response(body, words, tables):
    error, items, throttle, own = words
    every, tags = tables
    keys = [row(api_key=key, min_version=low, max_version=high, _tagged_fields=tagged(body, tags, count))
            for key, low, high, count in cut(every, int(items))]
    return row(error_code=int(error), api_keys=keys, throttle_time_ms=number(throttle), _tagged_fields=tagged(body, tags, int(own)))


def request(body, words, tables):
    name, version, own = words
    return row(client_software_name=text(name), client_software_version=text(version), _tagged_fields=tagged(body, tables[0], int(own)))


def nodes(table, count):
    return None if count < 0 else [node for (node,) in cut(table, count)]


def rack(body, kind, start, length):
    return (ABSENT, None, text_at(body, start, length))[kind]


def metadata(body, words, tables):
    throttle, brokers, cluster, controller, topics = words
    every_broker, every_topic, every_partition, replicas, synced = tables

    def partitions(count):
        return [row(error_code=error, partition_index=index, leader_id=leader, replica_nodes=nodes(replicas, some), isr_nodes=nodes(synced, few))
                for error, index, leader, some, few in cut(every_partition, count)]

    return row(throttle_time_ms=number(throttle),
               brokers=[row(node_id=node, host=text_at(body, start, length), port=port, rack=rack(body, *where))
                        for node, start, length, port, *where in cut(every_broker, int(brokers))],
               cluster_id=text(cluster), controller_id=number(controller),
               topics=[row(error_code=error, name=text_at(body, start, length), is_internal=ABSENT if internal < 0 else internal == 1,
                           partitions=partitions(count)) for error, start, length, internal, count in cut(every_topic, int(topics))])


def fetch(version, start_of_body, body, words, tables):
    throttle, topics = words
    every_topic, every_partition, pairs = tables

    def partitions(count):
        return [row(partition_index=index, error_code=error, high_watermark=high, last_stable_offset=stable if version >= 4 else ABSENT,
                    aborted_transactions=[row(producer_id=p, first_offset=o) for p, o in cut(pairs, few)] if version >= 4 else ABSENT,
                    records=row(start=start_of_body + start, length=length))
                for index, error, high, stable, few, start, length in cut(every_partition, count)]

    return row(throttle_time_ms=number(throttle),
               responses=[row(topic=text_at(body, start, length), partitions=partitions(count))
                          for start, length, count in cut(every_topic, int(topics))])


def request_header(frame, words, tables):
    key, version, correlation, client, own = words
    return row(request_api_key=int(key), request_api_version=int(version), correlation_id=int(correlation), client_id=text(client),
               _tagged_fields=tagged(frame, tables[0], int(own)))


def response_header(frame, words, tables):
    correlation, own = words
    return row(correlation_id=int(correlation), _tagged_fields=tagged(frame, tables[0], int(own)))


def agreed(items):
    given = ",".join(str(cell) for item in items for cell in item) or "-"
    _, *numbers = answering([f"agree {given}"])[0]
    return [row(api_key=key, api=APIS[key], version=None if version < 0 else version, broker_maximum=None if top < 0 else top)
            for key, version, top in rows(",".join(numbers), 3)]


# ---- layout


def shown(value):
    """A value on one line; in texts everything that does not print is escaped."""
    if isinstance(value, str):
        return '"' + "".join(c if c.isprintable() and c not in '"\\' else c.encode("unicode_escape").decode() if c not in '"\\' else "\\" + c
                             for c in value) + '"'
    if isinstance(value, dict) and list(value) == ["start", "length"]:
        return f"{value['length']} bytes at {value['start']}"
    if isinstance(value, dict):
        return ", ".join(f"{name} {shown(v)}" for name, v in value.items())
    if isinstance(value, list):
        return "[" + ", ".join(shown(v) for v in value) + "]"
    return json.dumps(value)


def lines(value, indent=""):
    """A row on one line, and below it its rows."""
    for name, field in value.items():
        if isinstance(field, list) and field and isinstance(field[0], dict):
            yield f"{indent}{name}: {len(field)}"
            for one in field:
                plain = {n: v for n, v in one.items() if not rows_in(v)}
                yield f"{indent}  {shown(plain)}"
                yield from lines({n: v for n, v in one.items() if rows_in(v)}, indent + "    ")
        else:
            yield f"{indent}{name}: {shown(field)}"


def rows_in(value):
    return isinstance(value, list) and bool(value) and isinstance(value[0], dict)


def around(body, place):
    """The bytes around a place, sixteen to a line, with a mark under it."""
    first = max(place // 16 - 1, 0) * 16
    for at in range(first, min(first + 48, len(body) + 1), 16):
        yield f"  {at:6}  {body[at:at + 16].hex(' ')}".rstrip()
        if at <= place < at + 16:
            yield "          " + "   " * (place - at) + "^^"


# ---- answers


class Given:
    """A body, by itself or in a frame with its header; places that are shown count from the first byte of what was given. `after` is how many bytes follow the frame."""

    def __init__(self, every_byte, start=0, header=None, after=0):
        self.every_byte, self.start, self.header, self.after = every_byte, start, header, after
        self.body = every_byte[start:]

    def in_json(self):
        """What is said of a frame, beside what is said of the body."""
        if self.header is None:
            return {}
        return {"header": self.header, "body_part": row(start=self.start, length=len(self.body)), "after_frame": self.after}

    def in_lines(self):
        if self.header is None:
            return []
        return [f"header: {shown(self.header)}", *self.body_in_lines()]

    def body_in_lines(self):
        rest = [f"after the frame: {self.after} bytes, which have no part in this"] if self.after else []
        return [f"body: {len(self.body)} bytes at {self.start}", *rest]


def refusal(words, start):
    _, n, place, need = words
    return row(number=int(n), means=MEANS[n], place=int(place) + (0 if int(n) in PLACELESS else start), need=int(need))


def refused(what, given, words, json_wanted, asking, more=()):
    """`asking` makes the case of the same question about another body."""
    said = refusal(words, given.start)
    if said["number"] == NOT_TEXT:
        said["letter"] = wrong_letter(given, int(words[2]), asking)
    if json_wanted:
        print(json.dumps(row(message=what, accepted=False, **given.in_json(), refusal=said)))
        return 1
    n, place, bytes_given = said["number"], said["place"], given.every_byte
    print(f"{what}: refused with {n}: {said['means']}")
    if n in PLACELESS:
        print("place 0: it is about the message as a whole")
    else:
        print(f"place {place} of {len(bytes_given)} bytes" + (", which is the end of the message" if place == len(bytes_given) else ""))
        print("\n".join(around(bytes_given, place)))
    if "letter" in said:
        print(said["letter"])
    for line in [*given.in_lines(), *more]:
        print(line)
    return 1


def of_text(body, place, count, asking):
    """How many of the bytes from the place on, at which a text goes wrong, are still the text's. Each is made one that starts no sequence, after plain letters: if it is the text's, it is what is refused then."""
    tried = [body[:place] + b"a" * k + b"\xff" + body[place + k + 1:] for k in range(1, count)]
    answers = answering([asking(other) for other in tried]) if tried else []
    return 1 + sum(words[:3] == ["no", str(NOT_TEXT), str(place + k)] for k, words in enumerate(answers, 1))


def wrong_letter(given, place, asking):
    """What is wrong in a text from the place on: docs/RULES.md, section 3."""
    body = given.body
    first = body[place]
    if first in range(0x80, 0xC0):
        return f"{first:02x} starts no sequence: it can only go on one"
    if first in (0xC0, 0xC1):
        return f"{first:02x} starts an overlong form: the character has one byte"
    if first >= 0xF5:
        return f"{first:02x} starts no sequence: it is in no text"
    length = 2 + (first >= 0xE0) + (first >= 0xF0)
    there = of_text(body, place, length, asking)
    for k in range(1, there):
        byte = body[place + k]
        if byte not in range(0x80, 0xC0):
            return f"{first:02x} starts a sequence of {length} bytes, and a continuation is missing: {byte:02x} at place {given.start + place + k} is none"
        if k == 1 and (first, byte) in OVERLONG:
            return f"{first:02x} {byte:02x} starts an overlong form: the character has fewer bytes"
        if k == 1 and first == 0xED and byte >= 0xA0:
            return f"{first:02x} {byte:02x} starts a surrogate, which is no character"
        if k == 1 and first == 0xF4 and byte >= 0x90:
            return f"{first:02x} {byte:02x} starts a number above U+10FFFF, which is no character"
    return f"{first:02x} starts a sequence of {length} bytes, and the text ends after {there} of them"


def other_layouts(body, version, words):
    """Of the three layouts at most one accepts a body: which, if it is not the one asked for."""
    if version not in range(4) or int(words[1]) in PLACELESS:
        return []
    others = [(other, name) for other, name in ((0, "0"), (1, "1 or 2"), (3, "3")) if other != version and (other, version) != (1, 2)]
    answers = answering([wording(WHOLE, other, body) for other, _ in others])
    for (_, name), answer in zip(others, answers):
        if answer[0] == "ok":
            return [f"Read whole, it is a body of version {name}: was the broker swapped, or the request sent at another version?"]
    return ["Read whole, it is a body of no version: was it cut, or is it another message?"]


def accepted(what, given, used, said, json_wanted):
    if json_wanted:
        print(json.dumps(row(message=what, accepted=True, **given.in_json(), used=used, body=said)))
        return 0
    print(f"{what}: accepted, {used} of {len(given.body)} bytes used")
    for line in [*given.in_lines(), *lines(said)]:
        print(line)
    return 0


def read(message, version, given, json_wanted, whole=False):
    what = f"{message} version {version}" + (", read whole" if whole else "")
    call = WHOLE if whole else READS[message]
    words, tables = ask(call, version, given.body)
    if words[0] != "ok":
        hint = message == "api-versions" and not json_wanted
        return refused(what, given, words, json_wanted, lambda other: wording(call, version, other), other_layouts(given.body, version, words) if hint else ())
    says = {"api-versions": response, "api-versions-request": request, "metadata": metadata}.get(message, lambda *rest: fetch(version, given.start, *rest))
    return accepted(what, given, int(words[1]), says(given.body, words[2:], tables), json_wanted)


def agree(version, given, json_wanted):
    what = f"api-versions version {version}, read whole"
    words, tables = ask(WHOLE, version, given.body)
    if words[0] != "ok":
        return refused(what, given, words, json_wanted, lambda other: wording(WHOLE, version, other), () if json_wanted else other_layouts(given.body, version, words))
    _, used, _, items, *_ = words
    return accepted(what, given, int(used), row(agreed=agreed(cut(tables[0], int(items)))), json_wanted)


def host(node, version, given, json_wanted):
    what = f"host of node {node}, metadata version {version}"
    asking = lambda other: f"host {version} {node} {other[:MOST + 1].hex() or '-'}"
    words = answering([asking(given.body)])[0]
    if words[0] != "ok":
        return refused(what, given, words, json_wanted, asking)
    found = None if words[1] == "none" else text(words[1])
    if json_wanted:
        print(json.dumps(row(message=what, accepted=True, **given.in_json(), host=found)))
    else:
        print(f"{what}: " + ("no broker has it" if found is None else shown(found)))
    return 1 if found is None else 0


# ---- frames


def size_in_words(data):
    """What the first bytes say of the frame, and what is there. A header ends with its frame."""
    if len(data) < SIZE:
        return f"A frame begins with its size, which has {SIZE} bytes."
    return f"The size of the frame is {int.from_bytes(data[:SIZE], 'big', signed=True):,}, and {len(data) - SIZE:,} bytes follow it."


def open_frame(side, number, data, json_wanted):
    """The body in the frame at the front of the bytes, with the header read; or the exit, where the frame was refused and that was said."""
    words, tables = ask(FRAMES[side], number, data, MOST + SIZE)
    if words[0] != "ok":
        asking = lambda other: wording(FRAMES[side], number, other, MOST + SIZE)
        more = [size_in_words(data)] if int(words[1]) in (BYTES_END, BAD_SIZE) else ()
        return refused(f"{side} frame, header {number}", Given(data), words, json_wanted, asking, more)
    _, used, *own, body = words
    start, _, _ = body.partition(":")
    frame = data[: int(used)]
    says = request_header if side == "request" else response_header
    return Given(frame, int(start), says(frame, own, tables), len(data) - len(frame))


def frame(side, number, data, json_wanted):
    given = open_frame(side, number, data, json_wanted)
    if not isinstance(given, Given):
        return given
    what, used = f"{side} frame, header {number}", len(given.every_byte)
    if json_wanted:
        print(json.dumps(row(message=what, accepted=True, used=used, **given.in_json())))
        return 0
    print(f"{what}: accepted, {used} of {len(data)} bytes used")
    for line in [*lines(given.header), *given.body_in_lines()]:
        print(line)
    return 0


def header_number(message, version):
    """Which header the message has at that version."""
    key, side = SENT[message]
    return int(answering([f"{side}_number {key} {version}"])[0][1])


def night(json_wanted):
    said = run("feared_night")
    print(json.dumps({"night": said}) if json_wanted else "\n".join(said))
    return 0


# ---- the input: raw bytes or plain hex, and no frame where none is said to be


DUMP = """It looks like a dump, whose lines begin with offsets. xxd -r makes raw bytes of a dump of xxd. Else give the bytes that were dumped,
raw or as xxd -p writes them; from Wireshark copy them as a hex stream. Do not copy columns by hand: some dumps swap bytes."""
ALL_BYTES = "\nIf there are no offsets and all of it is bytes, ask with --hex."
SIGNS = "Leave out all but the digits: each 0x, \\x, colon, comma and dash."
BASE64 = "If it is base64, base64 -d turns it into raw bytes, which can be given as they are."
DIGITS = """A digit is missing, or one is too many; a byte is written 0a and not a. If a line was broken inside a byte, join the lines
with tr -d '\\n'."""
PLAIN = """Plain hex is two digits for each byte, with spaces, lines and # comments between bytes. If the input is raw bytes and no
text, ask with --raw."""
# Control characters that stand in no text. Bell to return (07 to 0d), DOS's end of a file (1a) and escape (1b) do.
NO_TEXT = re.compile(rb"[\x00-\x06\x0e-\x19\x1c-\x1f\x7f]")
UTF8_MARK, UTF16_MARKS = b"\xef\xbb\xbf", (b"\xff\xfe", b"\xfe\xff")
# The fewest bytes that a frame has: its size and the numbers of a header, which for a request are API key, version and correlation id.
FEWEST = {"request": 12, "response": 8}


def bytes_of(name, data, form):
    if form == "--raw":
        return data
    if form == "" and data[:2] in UTF16_MARKS:
        raise NoBody(f"{name} begins as text in UTF-16 does\nSave it as plain text, in UTF-8 or ASCII. If it is raw bytes, ask with --raw.")
    if form == "" and NO_TEXT.search(data):
        return data
    return plain_hex(name, data, form == "--hex")


def plain_hex(name, data, certain):
    """The bytes of a text of hex digits. Lines that seem to begin with offsets are taken as bytes only where the caller is certain."""
    lines = [line.decode(errors="replace").split("#")[0] for line in data.removeprefix(UTF8_MARK).splitlines()]
    for i, line in enumerate(lines):
        fault = fault_in(line)
        if fault:
            raise no_hex(name, i, *fault)
    words = [line.split() for line in lines]
    if not certain and offsets_in([some for some in words if some]):
        first = next(i for i, some in enumerate(words) if some)
        column = lines[first].index(words[first][0])
        raise no_hex(name, first, column, "the line begins with an offset, the number of bytes before it", DUMP + ALL_BYTES)
    return bytes.fromhex("".join(map("".join, words)))


def no_hex(name, line, column, why, advice):
    return NoBody("\n".join(part for part in (f"{name}, line {line + 1}, column {column + 1}: {why}", advice, PLAIN) if part))


def fault_in(line):
    """What is no byte in a line: the column, why, and what to do about it."""
    for word in re.finditer(r"\S+", line):
        other = re.search("[^0-9A-Fa-f]", word[0])
        if other:
            return word.start() + other.start(), f"{other[0]!r} is no hex digit", advice_on(line)
        digits = len(word[0])
        if digits % 2 == 1:
            # hexdump and od write offsets of seven digits.
            is_offset = digits == 7 and not line[: word.start()].strip()
            return word.start(), f"an odd number of hex digits together ({digits}), and a byte has two", DUMP if is_offset else DIGITS
    return None


def advice_on(line):
    """What to do about a line that has something else than digits, by what it looks like."""
    if re.match(r"\s*(0[xX])?[0-9A-Fa-f]{4,}(:|\s.*\|)", line):
        return DUMP
    if re.search(r"[0\\][xX]|[0-9A-Fa-f]{2}[:,-]", line):
        return SIGNS
    return BASE64 if re.fullmatch(r"\s*[A-Za-z0-9+/]+=*\s*", line) else ""


def offsets_in(lines):
    """The first word of each line is longer than a byte and says how many bytes stand before it, as in a dump; on a single line the others are bytes."""
    before = 0
    for first, *others in lines:
        if len(first) == 2 or int(first, 16) != before:
            return False
        before += sum(map(len, others)) // 2
    return before > 0 and (len(lines) > 1 or all(len(word) == 2 for word in lines[0][1:]))


def refuse_frame(name, message, data):
    """A frame begins with its size: how many bytes come after it."""
    after = len(data) - SIZE
    if len(data) < FEWEST[SENT[message][1]] or int.from_bytes(data[:SIZE], "big") != after:
        return
    raise NoBody(f"{name} begins as a frame does: its first {SIZE} bytes say that {after} bytes follow, and {after} do\n"
                 "If it is a frame, ask with --frame: the header is read, and then the body in it. If it is a body, ask with --body.")


# ---- arguments


def whole_number(word, low, high, name):
    try:
        n = int(word)
    except ValueError:
        raise Usage(f"{name} is a number, and {word!r} is none") from None
    if not low <= n <= high:
        raise Usage(f"{name} is from {low} to {high}")
    return n


def input_of(words):
    """The input, and how it is called."""
    try:
        return (words[0], pathlib.Path(words[0]).read_bytes()) if words else ("standard input", sys.stdin.buffer.read())
    except OSError as e:
        raise Usage(f"{words[0]}: {e.strerror}") from None


def given_body(name, message, version, data, flags, frames, json_wanted):
    """The body that is asked about, out of its frame where there is one; or the exit, where the frame was refused."""
    if frames:
        (word,) = frames
        number = cell(word.removeprefix("--frame="), "the NUMBER of --frame") if word != "--frame" else header_number(message, version)
        return open_frame(SENT[message][1], number, data, json_wanted)
    if "--body" not in flags:
        refuse_frame(name, message, data)
    return Given(data)


def cell(word, name):
    return whole_number(word, -(2**63), 2**63 - 1, name)


def main(words):
    flags = {w for w in words if w.startswith("--")}
    frames = {w for w in flags if w == "--frame" or w.startswith("--frame=")}
    command, *rest = [w for w in words if not w.startswith("--")] or [""]
    if not flags - frames <= {"--json", "--raw", "--hex", "--body"} or {"--raw", "--hex"} <= flags or len(frames) + ("--body" in flags) > 1:
        raise Usage("options are --json, --frame or --body, and --raw or --hex")
    wanted = {"read": 2, "whole": 1, "agree": 1, "host": 2, "frame": 2, "night": 0}
    if command not in wanted or not wanted[command] <= len(rest) <= wanted[command] + (command != "night"):
        raise Usage("")
    json_wanted = "--json" in flags
    if command == "night":
        return night(json_wanted)
    first = rest[: wanted[command]]
    if command == "read" and first[0] not in READS:
        raise Usage(f"there is no message {first[0]}")
    if command == "frame" and (first[0] not in FRAMES or frames or "--body" in flags):
        raise Usage("a frame is asked about with request or response, and without --frame and --body")
    message = {"read": first[0], "host": "metadata"}.get(command, "api-versions")
    version = cell(first[-1], "NUMBER" if command == "frame" else "VERSION")
    node = whole_number(first[0], -(2**31), 2**31 - 1, "NODE") if command == "host" else 0
    name, data = input_of(rest[wanted[command]:])
    data = bytes_of(name, data, "--raw" if "--raw" in flags else "--hex" if "--hex" in flags else "")
    if command == "frame":
        return frame(first[0], version, data, json_wanted)
    given = given_body(name, message, version, data, flags, frames, json_wanted)
    if not isinstance(given, Given):
        return given
    if command == "host":
        return host(node, version, given, json_wanted)
    if command == "agree":
        return agree(version, given, json_wanted)
    return read(message, version, given, json_wanted, command == "whole")


try:
    sys.exit(main(sys.argv[1:]))
except Usage as why:
    print(f"befrolan: {why}\n{USAGE}" if str(why) else USAGE, file=sys.stderr)
    sys.exit(2)
except NoBody as why:
    sys.exit(fail(str(why)))
except BrokenPipeError:
    sys.exit(1)
