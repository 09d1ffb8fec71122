# What the program must write, from docs/RULES.md and Python's own arithmetic: python3 expected.py > stdout


def unsigned(n):
    groups = []
    while True:
        groups.append(n % 128)
        n //= 128
        if n == 0:
            break
    return [g + 128 for g in groups[:-1]] + groups[-1:]


def told(n, count):
    print(f"{n}, used {count}")


def refused(number, place=0, need=0):
    print(f"{number} at {place}, need {need}")


def shown(bs):
    print("".join(f" {b:02x}" for b in bs))


for k in range(0, 10):
    for n in ([0, 127] if k == 0 else [128 ** k, min(128 ** (k + 1), 2 ** 64) - 1]):
        shown(unsigned(n))
        told(n, len(unsigned(n)))


def eight(n, count):
    print("".join(f" {b:02x}" for b in n.to_bytes(8, "big", signed=True)) + f", used {count}")


# n from 0 on is carried as 2n, n below 0 as -2n - 1
def signed(n, bits):
    bs = unsigned(2 * n if n >= 0 else -2 * n - 1)
    if -(2 ** (bits - 1)) <= n < 2 ** (bits - 1):
        shown(bs)
        eight(n, len(bs))
    else:
        # nothing is written, and the zero bytes of the output are read
        refused(11)
        eight(0, 1)


for n in [-(2**31) - 1, -(2**31), -8193, -8192, -65, -64, -1, 0, 63, 64, 8191, 8192, 2**31 - 1, 2**31]:
    signed(n, 32)
for n in [-(2**63), -(2**62) - 1, -(2**62), -1, 0, 2**62 - 1, 2**62, 2**63 - 1]:
    signed(n, 64)

# the four texts, which start at 2: the others go wrong with their first byte
print("4 from 2, used 6")
for _ in range(3):
    refused(7, 2)

# written: the first of them, and 7 for the others; six bytes have no room for the seven of "abcde" and its length
shown([0, 4, 0xF4, 0x8F, 0xBF, 0xBF])
for _ in range(3):
    refused(7)
refused(10, 0, 7)

# 32,767 bytes are written, behind two of their length, and read; 32,768 give 11, but have a compact length
print(f"{2 + 32767} bytes")
print(f"32767 from 2, used {2 + 32767}")
refused(11)
refused(11)
print(f"{len(unsigned(32768 + 1)) + 32768} bytes")

# null string; below; compact 0 and 1; compact null; compact bytes 0; null records
print("null, used 2")
refused(4)
refused(6)
print("0 from 1, used 1")
print("null, used 1")
refused(6)
print("0 from 4, used 4")


# tagged fields, and a table that began as seven sevens: no tag; two tags; data cut short; a third row has no room;
# the second tag is missing; no byte
def table(*cells):
    print("".join(f" {c}" for c in list(cells) + [7] * (7 - len(cells))))


told(0, 1)
table()
told(2, 7)
table(5, 3, 0, 4, 5, 2)
refused(3, 2)
table()
refused(10, 0, 3)
table()
refused(3, 3)
table()
refused(3)
table()

# written: two tags; unset tags are none; two rows and a count of one; a range outside the two lent bytes; eight bytes into seven
shown([2, 5, 0, 4, 2, 0xAA, 0xBB])
shown([0])
refused(13)
refused(13)
refused(10, 0, 8)

# nothing is left for any of the eighteen
for _ in range(18):
    refused(3)
