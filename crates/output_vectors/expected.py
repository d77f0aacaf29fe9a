#!/usr/bin/env python3
# What `output_vectors` must write, worked out from document 01's sentences alone: python3 expected.py > stdout
LIMIT = 16777215  # "house writing over 16,777,215 bytes or longer than the lent output" is refused by 19


def integer(n):  # "no leading zero but `0` itself"
    return str(n)


def identifier(*parts):  # "integers joined by dots"
    return ".".join(integer(p) for p in parts)


def coordinate(z):  # millionths of a degree: "1 to 3 digits .., a point, exactly six digits"; "`0.000000` has no sign"
    whole, part = divmod(abs(z), 1000000)
    return ("-" if z < 0 else "") + str(whole) + "." + str(part).rjust(6, "0")


def memory(data):
    return "".join(" " + str(b) for b in data)


def show(lent, text):
    data = text.encode()
    if len(data) <= LIMIT and len(data) <= lent:
        print("written %d" % len(data))
        print(text + " then" + memory(bytes(lent - len(data))))  # "A lent output is zero behind what was written."
    else:
        print("refused 19")
        print(" then" + memory(bytes(lent)))  # "then zero over their whole length"


LOWEST, HIGHEST = -(2**31), 2**31 - 1
lines = [integer(n) for n in (0, 9, 10, 99, 100, 32768, 99999, 1000000000, 4294967295)]
for z in (0, 1, -1, 999999, -999999, 1000000, -500000, 90000000, 180000000, -180000000, 100000010, HIGHEST, LOWEST):
    lines.append(coordinate(z))
lines.append(identifier(99999, 10) + "\t" + identifier(1, 100, 4294967295))
show(212, "".join(line + "\n" for line in lines))

packed = b"".join(n.to_bytes(size, "big") for n, size in ((258, 2), (16909060, 4), (65280, 2), (4278190335, 4)))
print(" then" + memory(packed))

data = [7, 7]
for at in (2, 16777213, 16777214, 16777215, 16777216, 2**64 - 1, 1, 0):
    if at < len(data):
        data[at] = ord("x")
    print(str(min(at + 1, LIMIT + 1)) + " then" + memory(data))

point = identifier(1, 1, 2) + "\t" + coordinate(45000100) + "\t" + coordinate(-93000000) + "\nend_lane\n"
show(len(point), point)
show(len(point) - 1, point)
