#!/usr/bin/env python3
"""test.py [WORDS..]: replays the stored list of this folder, `cases`, and compares what is answered with `expected`, which the Rust and the rules
gave; then gives the program lines that are long, odd, or no cases at all. What it must say to these was worked out from docs/ANSWERS.md.
WORDS are the command that runs the program; without any it is built and run."""
import os
import random
import subprocess
import sys

HERE = os.path.dirname(os.path.abspath(__file__))
ROOT = os.path.dirname(os.path.dirname(HERE))
BAD = "bad case"
failed = []


def told(text, *words):
    """What the program answers, and its exit status."""
    done = subprocess.run(command + list(words), input=text, stdout=subprocess.PIPE, stderr=subprocess.DEVNULL)
    return done.stdout, done.returncode


def check(what, good):
    if not good:
        failed.append(what)
        print("answers: FAILED: " + what)


def same(what, cases, answers, *words):
    """Cases and answers by lines, each of which ends."""
    text = "".join(c + "\n" for c in cases).encode("latin-1")
    check(what, told(text, *words) == ("".join(a + "\n" for a in answers).encode(), 0))


# ---- the stored list


def stored(name):
    with open(os.path.join(HERE, name), "rb") as f:
        return f.read()


def replay():
    cases, expected = stored("cases"), stored("expected")
    answered, status = told(cases)
    lines = list(zip(cases.split(b"\n"), expected.split(b"\n"), answered.split(b"\n")))
    for case, wanted, got in [l for l in lines if l[1] != l[2]][:10]:
        print("answers: %s\nexpected: %s\nanswered: %s" % tuple(x.decode(errors="replace")[:300] for x in (case, wanted, got)))
    check("the stored list", answered == expected and status == 0)
    return len(lines) - 1


# ---- lines that are long, or odd

E9 = "response_read_whole 1 8 3 000000000001001200000003", "no 3 12 0 777*8 777,777,777 kept"


def ends():
    check("no line at all", told(b"") == (b"", 0))
    check("one empty line", told(b"\n") == (b"bad case\n", 0))
    check("a last line without an end", told((E9[0] + "\n" + E9[0]).encode()) == ((E9[1] + "\n" + E9[1] + "\n").encode(), 0))


def long_lines():
    most, over = 1048576, 1048640
    same("bytes written out, up to the most", ["int8 " + "01" * most, "int8 " + "01" * (most + 1), "int8 " + "01" * over], ["ok 1 1", "no 2 0 0", "no 2 0 0"])
    same("bytes over the most", ["int8 " + "01" * (over + 1), "int8 01*1048641", "int8 01*1048640,01", "int8 00,01*1048640", E9[0]], [BAD] * 4 + [E9[1]])
    same("cells written out, up to the most", ["agree " + "1," * 65535 + "1", "agree " + "1," * 65536 + "1", "agree 0*65536", "agree 0,0*65536", "agree 0*65537"],
         ["ok 18 -1 -1 3 -1 -1 1 -1 1", BAD, "ok 18 -1 -1 3 -1 -1 1 -1 -1", BAD, BAD])
    same("a line of five million bytes that is no case", ["x" * 5000000, "int8 " + " " * 5000000, "agree " + "," * 5000000, E9[0]], [BAD, BAD, BAD, E9[1]])


def long_frames():
    """The limit is that of header and body together: with the size 4 bytes more are written, and what is after a frame is not looked at."""
    most, front = 1048576, "0010000000000007"
    same("a frame of the most bytes, written", ["response_frame_write %d 0 - 7 -1 - 61*%d" % (room, n) for room, n in ((most + 4, most - 4), (most + 3, most - 4), (most + 64, most - 3))],
         ["ok %d %s,61*%d kept" % (most + 4, front, most - 4), "no 10 0 %d a5*%d kept" % (most + 4, most + 3), "no 2 0 0 a5*%d kept" % (most + 64)])
    same("a request's frame of the most bytes, written", ["request_frame_write %d 1 - 18 3 7 null -1 - 61*%d" % (most + 64, n) for n in (most - 10, most - 9)],
         ["ok %d 001000000012000300000007ffff,61*%d,a5*60 kept" % (most + 4, most - 10), "no 2 0 0 a5*%d kept" % (most + 64)])
    same("a frame of the most bytes, read", ["response_frame_read 0 0 %s,61*%d%s" % (front, n, after) for n, after in ((most - 4, ""), (most - 4, ",62*60"), (most - 5, ""))]
         + ["response_frame_read 0 0 0010000100000007,61*%d" % (most - 3), "request_frame_read 1 0 80000000,00*%d" % most],
         ["ok %d 7 -1 8:61*%d - kept" % (most + 4, most - 4)] * 2 + ["no 3 0 0 - kept", "no 14 0 0 - kept", "no 14 0 0 - kept"])


def documented():
    """The examples of docs/ANSWERS.md that go in pairs of lines, a case and its answer."""
    with open(os.path.join(ROOT, "docs/ANSWERS.md")) as f:
        _, _, after = f.read().partition("go in pairs")
    lines = [line.strip() for line in after.splitlines() if line.startswith("    ")]
    check("pairs of lines in docs/ANSWERS.md", len(lines) >= 14 and len(lines) % 2 == 0)
    same("the examples of docs/ANSWERS.md", lines[::2], lines[1::2])


def rooms():
    same("a table over the most cells", ["tagged_fields 65536 00", "tagged_fields 65537 00"], ["ok 1 0 777*65536 kept", BAD])
    same("as many cells as are asked for", ["tagged_fields 1048640 00", "tagged_fields 1048641 00", "agree 0*1048640"],
         ["ok 1 0 777*1048640 kept", BAD, "ok 18 -1 -1 3 -1 -1 1 -1 -1"], "1048640")
    same("no cells at all", ["tagged_fields 0 00", "tagged_fields 1 00", "agree 0", "agree -"],
         ["ok 1 0 - kept", BAD, BAD, "ok 18 -1 -1 3 -1 -1 1 -1 -1"], "0")
    for words in (["x"], ["-1"], [""], ["1", "2"], ["99999999999999999999"], ["1152921504606846976"]):
        check("the words %s" % words, told(b"", *words) == (b"", 2))


ODD = ["\0", "int8\0 00", "int8 00\0", "int8 00\r", "int8 00 ", " int8 00", "int8  00", "int8\t00", "int8", "int8 ", "INT8 00", "int8 AA", "int8 0", "int8 0g", "int8 \xff",
       "int8 -0", "int8 --", "int8 ,", "int8 00,", "int8 ,00", "int8 00,,00", "int8 00*", "int8 00*0", "int8 00*-1", "int8 00*1*1", "int8 0000*2", "int8 *2", "int8 00* 2",
       "int8 00*99999999999999999999", "agree", "agree ,", "agree 1,", "agree 1*", "agree 1*0", "agree *1", "agree 1*1*1", "agree +1", "agree 1-", "agree -", "agree - -",
       "agree 18446744073709551616", "agree -9223372036854775809", "write_int8 1 ", "write_int8 -1 0", "write_int8 1048641 0", "write_boolean 1 2", "write_boolean 1 01",
       "write_boolean 1 true", "write_array_count 4 nul", "write_string 4 null", "request_write 9 3 - 0:0 0: 0 -", "request_write 9 3 - :0 0:0 0 -",
       "request_write 9 3 - 0:0:0 absent 0 -", "request_write 9 3 - null absent 0 -", "part 00 0 1", "response_read 0x3 8 3 00", "host 0 0", "host 0 0 - -",
       "request_frame_read", "request_frame_read 1 0", "request_frame_read 1 0 - -", "request_frame_read 1 -1 -", "request_frame_read - 0 -", "response_frame_read 0 65537 -",
       "request_frame_write 20 1 - 18 3 7 nul -1 - -", "request_frame_write 20 1 - 18 3 7 0 -1 - -", "request_frame_write 20 1 - 18 3 7 0: -1 - -",
       "request_frame_write 20 1 - 18 3 7 null null - -", "request_frame_write 20 1 - absent 3 7 null -1 - -", "request_frame_write 20 1 - 18 3 7 null -1 -",
       "request_frame_write 1048641 1 - 18 3 7 null -1 - -", "response_frame_write 20 0 - 7 absent - -", "response_frame_write 20 0 - 7 -1 - null",
       "response_frame_write 20 0 - 7 -1 - - -", "response_frame_write 20 0 - 18446744073709551616 -1 - -", "request_number 18", "request_number 18 3 0", "request_number x 3",
       "response_number 18 -", "response_number -9223372036854775809 0"]


def odd():
    same("lines that are no cases", ODD, ["ok 18 -1 -1 3 -1 -1 1 -1 -1" if case == "agree -" else BAD for case in ODD])


def damaged(line, rng):
    """A stored case with a few of its bytes changed, left out or doubled."""
    line = bytearray(line)
    for _ in range(rng.randrange(1, 4)):
        at = rng.randrange(len(line) + 1)
        line[at:at + rng.randrange(3)] = bytes(rng.choice(b" ,*:-0123456789afxn\0\xff") for _ in range(rng.randrange(3)))
    return bytes(line)


def noise():
    """Whatever is wrong with a line, it has one answer, and the next line has its own."""
    rng = random.Random(1)
    cases = [c for c in stored("cases").split(b"\n") if len(c) < 200 and b"\n" not in c]
    framed = [c for c in cases if b"_frame_" in c]
    lines = [damaged(rng.choice(cases), rng) for _ in range(20000)] + [damaged(rng.choice(framed), rng) for _ in range(5000)]
    answered, status = told(b"\n".join(lines) + b"\n")
    check("damaged cases", status == 0 and answered.count(b"\n") == len(lines) and b"broken" not in answered and b"stray" not in answered)
    return len(lines)


def one_by_one():
    """A caller that waits for each answer gets it."""
    asked = subprocess.Popen(command, stdin=subprocess.PIPE, stdout=subprocess.PIPE)
    for _ in range(3):
        asked.stdin.write(E9[0].encode() + b"\n")
        asked.stdin.flush()
        check("an answer before the input ends", asked.stdout.readline() == E9[1].encode() + b"\n")
    asked.stdin.close()
    check("the end of a caller that waits", asked.wait() == 0)


command = sys.argv[1:] or [os.path.join(ROOT, "tools/answers")]
lines = replay()
for test in (ends, long_lines, long_frames, documented, rooms, odd, one_by_one):
    test()
damages = noise()
print("answers: %d stored lines replayed, %d damaged ones and %d odd ones answered, %d failed" % (lines, damages, len(ODD), len(failed)))
sys.exit(1 if failed else 0)
