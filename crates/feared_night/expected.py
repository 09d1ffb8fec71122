# What the program must write, by a reader of ApiVersions responses written from docs/RULES.md alone: python3 expected.py > stdout


class Refused(Exception):
    pass


def integer(s, p, size):
    if len(s) < p + size:
        raise Refused(3, p)
    return int.from_bytes(s[p:p + size], "big", signed=True), p + size


def varint(s, p):
    n = 0
    for k in range(10):
        if len(s) <= p + k:
            raise Refused(3, p)
        b = s[p + k]
        if k == 9:
            if b >= 128:
                raise Refused(5, p)
            b %= 2
        n += b % 128 << 7 * k
        if b < 128:
            return n, p + k + 1


def tagged(s, p):
    count, p = varint(s, p)
    for _ in range(count):
        _, p = varint(s, p)
        length, q = varint(s, p)
        if len(s) - q < length:
            raise Refused(3, p)
        p = q + length
    return count, p


# The number of items, None for null.
def items(s, p, v):
    if v == 3:
        n, q = varint(s, p)
        return (None if n == 0 else n - 1), q
    n, q = integer(s, p, 4)
    if n < -1:
        raise Refused(4, p)
    return (None if n == -1 else n), q


def read(s, v, whole):
    error, p = integer(s, 0, 2)
    count, q = items(s, p, v)
    if count is None and whole:
        raise Refused(8, p)
    rows, p = [], q
    for _ in range(count or 0):
        key, p = integer(s, p, 2)
        low, p = integer(s, p, 2)
        high, p = integer(s, p, 2)
        tags = -1
        if v == 3:
            tags, p = tagged(s, p)
        rows.append((key, low, high, tags))
    throttle, own = "absent", -1
    if v >= 1:
        throttle, p = integer(s, p, 4)
    if v == 3:
        own, p = tagged(s, p)
    if whole and p < len(s):
        raise Refused(9, p)
    return p, error, rows, throttle, own


def agreed(rows):
    for key, low, high in ((18, 0, 3), (3, 0, 4), (1, 4, 4)):
        listed = [r for r in rows if r[0] == key]
        common = [v for v in range(low, high + 1) if listed and listed[0][1] <= v <= listed[0][2]]
        yield key, max(common, default=-1), listed[0][2] if listed else -1


def tell(s, v, whole):
    head = f"  {'whole' if whole else 'prefix'} at {v}: "
    try:
        used, error, rows, throttle, own = read(s, v, whole)
    except Refused as e:
        print(f"{head}refused, {e.args[0]} at {e.args[1]}")
        return
    print(f"{head}accepted, used {used}, error {error}, items {len(rows)}, throttle {throttle}, tags {own}")
    for key, low, high, tags in rows:
        print(f"    key {key}: {low} to {high}, tags {tags}")
    for key, version, most in agreed(rows):
        print(f"    agreed on key {key}: {version} of {most}")


def accepts(s, v):
    try:
        read(s, v, True)
    except Refused:
        return False
    return True


def body(name, text):
    s = bytes.fromhex(text)
    print(name + "".join(f" {b:02x}" for b in s))
    print(f"  layouts that accept it: {sum(accepts(s, v) for v in (0, 1, 3))}")
    for whole in (True, False):
        for v in range(4):
            tell(s, v, whole)


body("E9, version 0, one row:", "0000 00000001 0012 0000 0003")
body("E10, version 1, the same row, throttle 0:", "0000 00000001 0012 0000 0003 00000000")
body("E11, version 3, the same row:", "0000 02 0012 0000 0003 00 00000000 00")
body("E12, version 1, no items, throttle 66816:", "0000 00000000 00010500")
body("Version 0, error 35, no items:", "0023 00000000")
body("Version 2, three rows, throttle 100:", "0000 00000003 0012 0000 0003 0003 0000 0009 0001 0004 000c 00000064")
body("Version 3, three rows, one with a tag, throttle 100, an own tag:", "0000 04 0012 0000 0003 00 0003 0000 0009 01 07 01 aa 0001 0004 000c 00 00000064 01 09 00")
body("Version 3, null items:", "0000 00 00000000 00")
body("Nothing at all:", "")


# The bytes of three items, the second with the tag 7 (data aa), throttle 100 and the own tag 9 (no data).
def written(v):
    rows = ((18, 0, 3, "00"), (3, 0, 9, "010701aa"), (1, 4, 12, "00"))
    text = "0000" + ("04" if v == 3 else "00000003")
    for key, low, high, tags in rows:
        text += f"{key:04x}{low:04x}{high:04x}" + (tags if v == 3 else "")
    return text + ("00000064" if v >= 1 else "") + ("010900" if v == 3 else "")


for v in range(4):
    body(f"Written at {v}:", written(v))
