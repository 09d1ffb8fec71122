"""The night desk's command against what it must say: stored cases, bodies made here from values, input that is no body, and questions that cannot be asked."""
import json
import pathlib
import random
import struct
import subprocess
import sys

ROOT = pathlib.Path(__file__).resolve().parent.parent.parent
wrong = []
tried = 0


def asked(words, body=b""):
    made = subprocess.run(["./befrolan", *words], cwd=ROOT, input=body, capture_output=True)
    return made.stdout.decode(), made.stderr.decode(), made.returncode


def told(words, body):
    """What is answered in JSON, or nothing where there is no answer; and the exit."""
    out, _, code = asked([*words, "--json"], body)
    return json.loads(out or "{}"), code


def check(what, found, wanted):
    global tried
    tried += 1
    if found != wanted:
        wrong.append(what)
        print(f"WRONG: {what}\n  wanted {str(wanted)[:2000]}\n  found  {str(found)[:2000]}")


def stored():
    """A line with $ is a question; what follows is what is printed, as an answer or, with exit 2, as an error, and the exit."""
    for case in (ROOT / "tests/desk/cases.txt").read_text().split("$ ")[1:]:
        question, _, answer = case.partition("\n")
        out, err, code = asked(question.split())
        check(question, f"{err if code == 2 else out}exit {code}\n", answer)
        check(f"{question}, on the other stream", out if code == 2 else err, "")


# ---- bodies from values, by the guide's grammar


def i16(n):
    return struct.pack(">h", n)


def i32(n):
    return struct.pack(">i", n)


def i64(n):
    return struct.pack(">q", n)


def string(s):
    return i16(-1) if s is None else i16(len(s.encode())) + s.encode()


def array(items, one):
    return i32(-1) if items is None else i32(len(items)) + b"".join(one(x) for x in items)


def varint(n):
    out = b""
    while n > 127:
        out += bytes([n % 128 + 128])
        n //= 128
    return out + bytes([n])


def tags(rows):
    return varint(len(rows)) + b"".join(varint(r["tag"]) + varint(len(r["data"]) // 2) + bytes.fromhex(r["data"]) for r in rows)


def metadata(v):
    return (i32(v["throttle_time_ms"])
            + array(v["brokers"], lambda b: i32(b["node_id"]) + string(b["host"]) + i32(b["port"]) + string(b["rack"]))
            + string(v["cluster_id"]) + i32(v["controller_id"])
            + array(v["topics"], lambda t: i16(t["error_code"]) + string(t["name"]) + bytes([t["is_internal"]]) + array(
                t["partitions"], lambda p: i16(p["error_code"]) + i32(p["partition_index"]) + i32(p["leader_id"])
                + array(p["replica_nodes"], i32) + array(p["isr_nodes"], i32))))


def answers(v):
    return (i16(v["error_code"]) + varint(len(v["api_keys"]) + 1)
            + b"".join(i16(k["api_key"]) + i16(k["min_version"]) + i16(k["max_version"]) + tags(k["_tagged_fields"]) for k in v["api_keys"])
            + i32(v["throttle_time_ms"]) + tags(v["_tagged_fields"]))


def made():
    luck = random.Random(7)
    name = lambda: "".join(luck.choice("abcde-é漢😀") for _ in range(luck.randrange(12)))
    nodes = lambda: None if luck.random() < 0.1 else [luck.randrange(-5, 60) for _ in range(luck.randrange(5))]
    tag = lambda: [{"tag": luck.randrange(400), "data": luck.randbytes(luck.randrange(20)).hex()} for _ in range(luck.randrange(3))]
    partition = lambda i: {"error_code": luck.randrange(-3, 90), "partition_index": i, "leader_id": luck.randrange(-1, 60),
                           "replica_nodes": nodes(), "isr_nodes": nodes()}
    for topics in (0, 3, 200):
        v = {"throttle_time_ms": luck.randrange(999),
             "brokers": [{"node_id": i, "host": name(), "port": 9092, "rack": luck.choice([None, "", name()])} for i in range(topics // 4)],
             "cluster_id": luck.choice([None, name()]), "controller_id": -1,
             "topics": [{"error_code": 0, "name": name(), "is_internal": luck.random() < 0.5,
                         "partitions": [partition(i) for i in range(luck.randrange(9))]} for _ in range(topics)]}
        said, code = told(["read", "metadata", "4"], metadata(v))
        check(f"metadata with {topics} topics", (said.get("body"), code), (v, 0))
    for keys in (0, 1, 60):
        v = {"error_code": -1, "api_keys": [{"api_key": luck.randrange(-9, 99), "min_version": 0, "max_version": luck.randrange(-1, 20),
                                             "_tagged_fields": tag()} for _ in range(keys)], "throttle_time_ms": 5, "_tagged_fields": tag()}
        said, code = told(["whole", "3", "--raw"], answers(v))
        check(f"an answer with {keys} rows", (said.get("body"), code), (v, 0))


# Contents of a text, the byte of it that is marked, and what is said about it. PLACE is that of the byte which should go on the sequence.
LETTERS = [
    (b"a\xbf", 1, "bf starts no sequence: it can only go on one"),
    (b"\xff", 0, "ff starts no sequence: it is in no text"),
    (b"ab\xc0\x80", 2, "c0 starts an overlong form: the character has one byte"),
    (b"\xe0\x9f\xbf", 0, "e0 9f starts an overlong form: the character has fewer bytes"),
    (b"\xf0\x8f\xbf\xbf", 0, "f0 8f starts an overlong form: the character has fewer bytes"),
    ("é".encode() + b"\xed\xa0\x80z", 2, "ed a0 starts a surrogate, which is no character"),
    (b"\xf4\x90\x80\x80", 0, "f4 90 starts a number above U+10FFFF, which is no character"),
    (b"a\xc3(b", 1, "c3 starts a sequence of 2 bytes, and a continuation is missing: 28 at place PLACE is none"),
    (b"\xe2\x82(", 0, "e2 starts a sequence of 3 bytes, and a continuation is missing: 28 at place PLACE is none"),
    (b"abc\xc3", 3, "c3 starts a sequence of 2 bytes, and the text ends after 1 of them"),
    ("漢".encode() + b"\xf0\x9f\x98", 3, "f0 starts a sequence of 4 bytes, and the text ends after 3 of them"),
    (b"a" * 5000 + b"\xe2\x82", 5000, "e2 starts a sequence of 3 bytes, and the text ends after 2 of them"),
]


def letters():
    """Each bad letter in a text of each message. What comes after the text begins with 80, which would go on a sequence."""
    broker = i32(7) + string("h") + i32(9) + string(None)
    texts = (
        (["read", "metadata", "4"], i32(0) + array([b""], lambda _: broker) + string("c") + i32(1) + i32(1) + i16(0), b"\x80" + i32(0)),
        (["read", "metadata", "0"], i32(1) + i32(7), b"\x80\0\0\0" + i32(0)),
        (["host", "7", "4"], i32(0) + i32(1) + broker[:-2], b"\x80\0" + i32(1) + i32(0)),
        (["read", "fetch", "4"], i32(0) + i32(1), b"\x80\0\0\0"),
    )
    for contents, marked, words in LETTERS:
        for question, front, after in texts:
            body = front + i16(len(contents)) + contents + after
            place = len(front) + 2 + marked
            missing = body.find(b"(", place)
            said = words.replace("PLACE", str(missing))
            out, _, code = asked([*question, "--raw"], body)
            under = next((above[10:][line.index("^") - 10:][:2] for above, line in zip(out.split("\n"), out.split("\n")[1:]) if "^^" in line), "")
            check(f"{question}, {contents[-9:]}: its words and its mark", (said in out.split("\n"), under, code), (True, f"{body[place]:02x}", 1))
            refusal = {"number": 7, "means": "a text is not UTF-8", "place": place, "need": 0, "letter": said}
            check(f"{question}, {contents[-9:]}, in JSON", told([*question, "--raw"], body), ({"message": out.split(":")[0], "accepted": False, "refusal": refusal}, 1))


def sizes():
    """A Fetch response of exactly the most bytes, one of a byte more, and one of many more."""
    front = i32(0) + i32(1) + string("t") + i32(1) + i32(0) + i16(0) + i64(1) + i64(1) + i32(0)
    fill = 1048576 - len(front) - 4
    partition = {"partition_index": 0, "error_code": 0, "high_watermark": 1, "last_stable_offset": 1, "aborted_transactions": [],
                 "records": {"start": len(front) + 4, "length": fill}}
    said, code = told(["read", "fetch", "4"], front + i32(fill) + bytes(fill))
    check("fetch at the limit", (said.get("used"), said.get("body"), code),
          (1048576, {"throttle_time_ms": 0, "responses": [{"topic": "t", "partitions": [partition]}]}, 0))
    for more in (1, 3000000):
        body = front + i32(fill + more) + bytes(fill + more)
        for words in (["read", "fetch", "4"], ["read", "metadata", "4"], ["agree", "3"], ["host", "1", "4"]):
            said, code = told(words, body)
            check(f"{words}, {more} over the limit", (said.get("refusal"), code),
                  ({"number": 2, "means": "the message has more than 1,048,576 bytes", "place": 0, "need": 0}, 1))


def large():
    """Bodies of nearly the most bytes, filled with rows of each table."""
    partition = {"error_code": 0, "partition_index": 7, "leader_id": 1, "replica_nodes": [1, 2], "isr_nodes": [2]}
    topic = {"error_code": 0, "name": "", "is_internal": False, "partitions": [partition]}
    cluster = {"throttle_time_ms": 0, "brokers": [{"node_id": i, "host": "", "port": 9, "rack": None} for i in range(20000)],
               "cluster_id": None, "controller_id": 1, "topics": [topic] * 20000}
    replicated = dict(cluster, brokers=[], topics=[dict(topic, partitions=[dict(partition, replica_nodes=[5] * 130000, isr_nodes=[6] * 130000)])])
    broker = {"node_id": 1, "host": "", "port": 2}
    aborting = {"partition_index": 3, "error_code": 0, "high_watermark": 9, "last_stable_offset": 7,
                "aborted_transactions": [{"producer_id": 42, "first_offset": 6}] * 5}
    offered = i16(0) + i32(174761) + (i16(5) + i16(0) + i16(9)) * 174760 + i16(3) + i16(0) + i16(12)
    for what, words, body, wanted in (
            ("20,000 brokers, topics and partitions", ["read", "metadata", "4"], metadata(cluster), cluster),
            ("130,000 replicas, and as many in sync", ["read", "metadata", "4"], metadata(replicated), replicated),
            ("104,856 brokers", ["read", "metadata", "0"], i32(104856) + (i32(1) + string("") + i32(2)) * 104856 + i32(0), {"brokers": [broker] * 104856, "topics": []}),
            ("131,071 topics", ["read", "metadata", "0"], i32(0) + i32(131071) + (i16(3) + string("") + i32(0)) * 131071,
             {"brokers": [], "topics": [{"error_code": 3, "name": "", "partitions": []}] * 131071}),
            ("174,762 Fetch topics", ["read", "fetch", "0"], i32(174762) + (string("") + i32(0)) * 174762, {"responses": [{"topic": "", "partitions": []}] * 174762}),
            ("9,500 Fetch partitions, each with 5 aborted transactions", ["read", "fetch", "4"],
             i32(0) + i32(1) + string("t") + i32(9500) + (i32(3) + i16(0) + i64(9) + i64(7) + i32(5) + (i64(42) + i64(6)) * 5 + i32(0)) * 9500,
             {"throttle_time_ms": 0, "responses": [{"topic": "t", "partitions": [dict(aborting, records={"start": 15 + 110 * (i + 1), "length": 0}) for i in range(9500)]}]}),
            ("174,761 APIs", ["whole", "0"], offered, {"error_code": 0, "api_keys": [{"api_key": 5, "min_version": 0, "max_version": 9}] * 174760
                                                      + [{"api_key": 3, "min_version": 0, "max_version": 12}]}),
            ("agreement on the last of 174,761 APIs", ["agree", "0"], offered, {"agreed": [
                {"api_key": 18, "api": "ApiVersions", "version": None, "broker_maximum": None}, {"api_key": 3, "api": "Metadata", "version": 4, "broker_maximum": 12},
                {"api_key": 1, "api": "Fetch", "version": None, "broker_maximum": None}]}),
            ("524,283 tags", ["whole", "3"], i16(0) + varint(1) + i32(0) + varint(524283) + bytes([1, 0]) + bytes([2, 0]) * 524282,
             {"error_code": 0, "api_keys": [], "throttle_time_ms": 0, "_tagged_fields": [{"tag": 1, "data": ""}] + [{"tag": 2, "data": ""}] * 524282})):
        said, code = told(words, body)
        check(what, (said.get("body") == wanted, code), (True, 0))
    out, _, code = asked(["host", "19999", "4"], metadata(cluster))
    check("the last of 20,000 brokers", (out, code), ('host of node 19999, metadata version 4: ""\n', 0))
    out, _, code = asked(["read", "metadata", "0"], i32(3000) + (i32(1) + string("") + i32(2)) * 3000 + i32(0))
    check("3,000 brokers as lines", (out.splitlines(), code),
          (["metadata version 0: accepted, 30008 of 30008 bytes used", "brokers: 3000", *['  node_id 1, host "", port 2'] * 3000, "topics: []"], 0))


def forms():
    """What is read as hex, what as raw bytes, and what as neither."""
    empty = b"000000000000"
    hexes = {"spaces and lines": b"00 00\r\n\t0000 0000\n", "capitals": b"00AB 0000 0000", "comments": b"# dashes -- and 0x in it\n0000#00\n00000000",
             "a comment in Latin-1": b"0000 # Flugger\xe4t\n00000000\n", "a mark of UTF-8": b"\xef\xbb\xbf" + empty, "a zero in front of longer pieces": b"0000 00000000"}
    for what, given in hexes.items():
        check(what, told(["read", "api-versions", "0"], given)[0].get("used"), 6)
    for what, words, given, used in (("raw bytes", [], bytes(6), 6), ("raw bytes with digits in front", [], b"00" + bytes(4), 6),
                                     ("an offset that is none", ["--hex"], b"0000 00 00 00 00", 6), ("nothing", [], b"", None), ("a comment alone", [], b"# 00", None)):
        said, code = told(["read", "api-versions", "0", *words], given)
        check(what, (said.get("used"), code), (used, 1 if used is None else 0))
    out, _, code = asked(["read", "api-versions-request", "0", "--raw"], b"broker-2")
    check("text that is raw bytes", (out.partition("\n")[0], code), ("api-versions-request version 0: accepted, 0 of 8 bytes used", 0))
    for what, words, given, seen in (
            ("text", [], b"broker-2", "standard input, line 1, column 2: 'r' is no hex digit"),
            ("text in UTF-8", [], "0000 – 0000".encode(), "standard input, line 1, column 6: '–' is no hex digit"),
            ("text with DOS's end of a file", [], b"000000000000\r\n\x1a", "standard input, line 2, column 1: '\\x1a' is no hex digit"),
            ("text in UTF-16", [], "0000".encode("utf-16"), "standard input begins as text in UTF-16 does"),
            ("hex that is none", ["--hex"], b"0000\n 0g", "standard input, line 2, column 3: 'g' is no hex digit"),
            ("raw bytes said to be hex", ["--hex"], bytes(6), "standard input, line 1, column 1: '\\x00' is no hex digit"),
            ("an odd number of digits", [], b"000", "standard input, line 1, column 1: an odd number of hex digits together (3), and a byte has two"),
            ("a byte on two lines", [], b"00000\n0000000\n", "standard input, line 1, column 1: an odd number of hex digits together (5), and a byte has two"),
            ("a dump of tcpdump", [], b"\t0x0000:  0000 0000 0000", "standard input, line 1, column 3: 'x' is no hex digit"),
            ("a dump over two lines", [], b"0000  0000 0000\n0004  0000", "standard input, line 1, column 1: the line begins with an offset, the number of bytes before it")):
        out, err, code = asked(["read", "api-versions", "0", *words], given)
        check(what, (out, err.partition("\n")[0], code), ("", "befrolan: " + seen, 2))


def recognised():
    """A frame is known by its size alone: one more byte or one fewer, and it is none. No body of zeros is one."""
    body = i16(0) + i32(1) + i16(18) + i16(0) + i16(3)
    for size, code in ((len(body) + 4, 2), (len(body) + 3, 1), (len(body) + 5, 1)):
        check(f"a frame of size {size}", asked(["whole", "0"], i32(size) + i32(7) + body)[2], code)
    check("a size and a correlation id alone", asked(["read", "metadata", "4"], i32(4) + i32(7))[2], 2)
    for zeros in (4, 8, 12, 18):
        check(f"{zeros} zeros", asked(["read", "fetch", "0"], bytes(zeros))[2], 0)


def framed(header, body):
    return i32(len(header) + len(body)) + header + body


def request_header(v):
    client = string(v["client_id"])
    return i16(v["request_api_key"]) + i16(v["request_api_version"]) + i32(v["correlation_id"]) + client + (tags(v["_tagged_fields"]) if "_tagged_fields" in v else b"")


def response_header(v):
    return i32(v["correlation_id"]) + (tags(v["_tagged_fields"]) if "_tagged_fields" in v else b"")


def headers():
    """Frames from values: each header, with bytes after the frame and without; and what is refused, at its place."""
    some = [{"tag": 300, "data": "4100"}, {"tag": 0, "data": ""}, {"tag": 300, "data": "ff" * 200}]
    number = {"request_api_key": -1, "request_api_version": 32767, "correlation_id": -(2**31)}
    for side, header, front, v in (
            ("request", 1, request_header, dict(number, client_id="漢 \0")), ("request", 1, request_header, dict(number, client_id=None)),
            ("request", 2, request_header, dict(number, client_id="", _tagged_fields=some)), ("request", 2, request_header, dict(number, client_id=None, _tagged_fields=[])),
            ("response", 0, response_header, {"correlation_id": 2**31 - 1}), ("response", 1, response_header, {"correlation_id": 0, "_tagged_fields": some})):
        for body, after in ((b"", b""), (b"\0\1", b""), (b"\0\1", bytes(70000))):
            start = 4 + len(front(v))
            said, code = told(["frame", side, str(header), "--raw"], framed(front(v), body) + after)
            wanted = {"message": f"{side} frame, header {header}", "accepted": True, "used": start + len(body), "header": v,
                      "body_part": {"start": start, "length": len(body)}, "after_frame": len(after)}
            check(f"{side} header {header}, {v}, {len(body)} and {len(after)} bytes after it", (said, code), (wanted, 0))
    for what, words, given, refusal in (
            ("no bytes", ["frame", "response", "0"], b"", (3, 0)), ("a cut size", ["frame", "request", "1"], b"\0\0\0", (3, 0)),
            ("size -1", ["frame", "request", "2"], b"\xff" * 4 + bytes(20), (14, 0)), ("a size over the limit", ["frame", "response", "1"], i32(1048577), (14, 0)),
            ("the same with all its bytes", ["frame", "response", "1"], i32(1048577) + bytes(1048577), (14, 0)),
            ("a frame that is cut", ["frame", "response", "0"], i32(6) + i32(7) + b"\0", (3, 0)),
            ("a size of 3", ["frame", "response", "0"], i32(3) + i32(7), (3, 4)), ("header 3", ["frame", "request", "3"], bytes(20), (1, 0)),
            ("a header far outside", ["frame", "response", "65536"], framed(i32(7), b""), (1, 0)),
            ("a name that goes on after its frame", ["frame", "request", "1"], i32(11) + bytes(8) + i16(3) + b"abcd", (3, 12)),
            ("a name that is too short", ["frame", "request", "1"], framed(bytes(8) + i16(-2), b""), (4, 12)),
            ("tags without an end", ["frame", "response", "1"], framed(i32(7) + b"\x80" * 10, b""), (5, 8))):
        said, code = told([*words, "--raw"], given)
        check(what, (said.get("refusal", {}).get("number"), said.get("refusal", {}).get("place"), code), (*refusal, 1))
    out, _, code = asked(["frame", "response", "1", "--raw"], i32(1048576) + bytes(1048576))
    check("the longest frame", (out, code), ("response frame, header 1: accepted, 1048580 of 1048580 bytes used\ncorrelation_id: 0\n_tagged_fields: []\nbody: 1048571 bytes at 9\n", 0))
    tag = {"tag": 2, "data": ""}
    said, code = told(["frame", "response", "1", "--raw"], framed(i32(7) + varint(524284) + b"\x02\0" * 524284, b"x"))
    check("524,284 tags in a header", (said.get("header") == {"correlation_id": 7, "_tagged_fields": [tag] * 524284}, said.get("body_part"), code), (True, {"start": 1048579, "length": 1}, 0))


def bodies_in_frames():
    """Bodies out of frames: what is said of them is the same, and every place counts from the frame's first byte."""
    short = i32(7)
    fetched = i32(0) + i32(1) + string("t") + i32(1) + i32(0) + i16(0) + i64(1) + i64(1) + i32(0) + i32(3) + b"abc"
    records = {"start": 8 + len(fetched) - 3, "length": 3}
    for after in (b"", b"\0\0\0\4"):
        said, code = told(["read", "fetch", "4", "--frame", "--raw"], framed(short, fetched) + after)
        check("records in a frame", (said["body"]["responses"][0]["partitions"][0]["records"], said["used"], said["header"], said["after_frame"], code),
              (records, len(fetched), {"correlation_id": 7}, len(after), 0))
    out, _, code = asked(["read", "fetch", "4", "--frame", "--raw"], framed(short, fetched))
    check("records in a frame, as lines", ("records 3 bytes at 53" in out, fetched[45:], code), (True, b"abc", 0))
    broker = i32(7) + string("h") + i32(9) + string(None)
    cluster = i32(0) + array([broker], bytes) + string("c") + i32(1) + i32(0)
    out, _, code = asked(["host", "7", "4", "--frame", "--raw"], framed(short, cluster))
    check("a host in a frame", (out, code), ('host of node 7, metadata version 4: "h"\n', 0))
    check("the same in JSON", told(["host", "7", "4", "--frame", "--raw"], framed(short, cluster)),
          ({"message": "host of node 7, metadata version 4", "accepted": True, "header": {"correlation_id": 7}, "body_part": {"start": 8, "length": len(cluster)},
            "after_frame": 0, "host": "h"}, 0))
    # another header than the one that the message has
    said, code = told(["read", "fetch", "4", "--frame=1", "--raw"], framed(short + tags([]), fetched))
    check("a header that is asked for", (said["header"], said["body_part"]["start"], code), ({"correlation_id": 7, "_tagged_fields": []}, 9, 0))
    check("one that there is not", told(["read", "fetch", "4", "--frame=2", "--raw"], framed(short, fetched))[0]["refusal"]["number"], 1)
    # requests of version 3 have header 2, and those before it header 1
    for version, front in ((3, {"_tagged_fields": []}), (2, {})):
        header = dict(request_api_key=18, request_api_version=version, correlation_id=5, client_id="g", **front)
        said, code = told(["read", "api-versions-request", str(version), "--frame", "--raw"], framed(request_header(header), b"\1\1\0"))
        check(f"the header of a request of version {version}", (said["header"], code), (header, 0))
    # each bad letter in a frame: the mark is under it, and the place of a byte in the words is one of the frame
    for contents, marked, words in LETTERS:
        for side, question, before, after in (
                ("response", ["read", "metadata", "0", "--frame"], short + i32(1) + i32(7), b"\x80\0\0\0" + i32(0)),
                ("request", ["frame", "request", "1"], i16(18) + i16(3) + i32(7), b"\x80")):
            frame = framed(before, i16(len(contents)) + contents + after)
            place = 4 + len(before) + 2 + marked
            said = words.replace("PLACE", str(frame.find(b"(", place)))
            out, _, code = asked([*question, "--raw"], frame)
            under = next((above[10:][line.index("^") - 10:][:2] for above, line in zip(out.split("\n"), out.split("\n")[1:]) if "^^" in line), "")
            check(f"{question}, {contents[-9:]}: its words and its mark", (said in out.split("\n"), under, code), (True, f"{frame[place]:02x}", 1))
            got = told([*question, "--raw"], frame)[0].get("refusal", {})
            check(f"{question}, {contents[-9:]}, in JSON", (got.get("number"), got.get("place"), got.get("letter")), (7, place, said))


def usage():
    for words in ([], ["read"], ["read", "fetch"], ["read", "produce", "1"], ["read", "fetch", "x"], ["read", "fetch", "9223372036854775808"], ["whole"],
                  ["whole", "1", "no-such-file"], ["host", "1"], ["host", "3000000000", "1"], ["night", "1"], ["agree", "1", "--yaml"],
                  ["whole", "1", "--raw", "--hex"], ["whole", "1", "--frame", "--body"], ["whole", "1", "--frame", "--frame=0"], ["whole", "1", "--frames"],
                  ["whole", "1", "--frame="], ["whole", "1", "--frame=x"], ["frame"], ["frame", "response"], ["frame", "answer", "0"], ["frame", "response", "x"],
                  ["frame", "response", "0", "--frame"], ["frame", "response", "0", "--body"], ["frame", "response", "0", "a", "b"], ["frame", "0", "response"],
                  ["--body"], ["--frame"], ["wholes", "1"], ["agree", "1", "a", "b"], ["host", "x", "1"]):
        out, err, code = asked(words)
        check(f"usage of {words}", (out, "usage: ./befrolan" in err, code), ("", True, 2))


def versions():
    """A version that no message has is asked for and refused, however far it is outside."""
    for version in ("40000", "65536", "-65536", str(2**63 - 1), str(-(2**63))):
        for words in (["read", "api-versions"], ["whole"], ["agree"], ["read", "api-versions-request"], ["read", "metadata"], ["host", "1"], ["read", "fetch"]):
            said, code = told([*words, version], bytes(8))
            check(f"{words} at {version}", (said.get("refusal"), code),
                  ({"number": 1, "means": "there is no such version, or no such header", "place": 0, "need": 0}, 1))


def night():
    out, _, code = asked(["night"])
    check("night", (out, code), ((ROOT / "crates/feared_night/stdout").read_text(), 0))


# The first question has what it needs built, and says so.
asked(["read", "api-versions", "0"], bytes(6))
for part in (stored, made, letters, sizes, large, forms, recognised, headers, bodies_in_frames, usage, versions, night):
    part()
print(f"desk: {tried} checks, {len(wrong)} wrong")
sys.exit(1 if wrong else 0)
