# What utf8_sweep must write, by Python's own UTF-8 decoder: python3 expected.py > stdout
EDGES = [0x00, 0x41, 0x7F, 0x80, 0x8F, 0x90, 0x9F, 0xA0, 0xBF, 0xC0, 0xE0, 0xFF]


def front(s):
    try:
        s.decode("utf-8", "strict")
        return len(s)
    except UnicodeDecodeError as e:
        return e.start


def is_text(s):
    try:
        s.decode("utf-8", "strict")
        return True
    except UnicodeDecodeError:
        return False


# where the decoder stops is the longest beginning that it takes
def checked(strings):
    for s in strings:
        assert front(s) == max(n for n in range(len(s) + 1) if is_text(s[:n])), s


def short(n):
    return (i.to_bytes(n, "big") for i in range(256 ** n))


def quads():
    for a in range(0xEF, 0xF6):
        for b in range(0x7F, 0xC1):
            for c in EDGES:
                for d in EDGES:
                    yield bytes([a, b, c, d])


def long():
    for q in quads():
        for at in range(17):
            yield b"a" * at + q + b"a" * (16 - at)


def told(what, strings):
    seen = good = digest = 0
    for s in strings:
        n = front(s)
        seen += 1
        good += n == len(s)
        digest = (digest * 31 + n + 1) % 1000003
    print(f"{what}: {good} of {seen}, digest {digest}")


checked(short(1))
checked(short(2))
checked(quads())
told("one byte", short(1))
told("two bytes", short(2))
told("three bytes", short(3))
told("four bytes", quads())
told("twenty bytes", long())
