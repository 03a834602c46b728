#!/usr/bin/env python3
"""Writes what examples/slices.c must print, by the Rust as oracle/build makes it: the whole chain as record 96 of docs/REPLAY.md, the finders as a listing.
The preview writes what these two give.

usage: examples/slices.py < examples/plate.gray > examples/slices.expected    (oracle/README.md says what it needs)"""
import struct, subprocess, sys

side, width, height, gap, tail = 200, 203, 197, 5, 3
max_finders = 1000
blocks = ["means", "least", "greatest", "edges", "nears"]
slices = ["gray", "bits", "denoised"] + blocks
pixels, bit_bytes, block_count = width * height, (width * height + 7) // 8, -(-width // 8) * -(-height // 8)
lengths = [n + tail for n in [pixels, bit_bytes, bit_bytes] + [block_count] * 5]
plate = sys.stdin.buffer.read()[4:]


subprocess.run(["oracle/build"], check=True)


def oracle(what, given):
    return subprocess.run(["target/oracle/checked/oracle", what], input=given, stdout=subprocess.PIPE, check=True).stdout.decode()


def draw(format):
    """The picture's bytes, as draw of slices.c has them, and its gray values by document 02's rule."""
    state, out, gray = format, bytearray(), bytearray()

    def chance():
        nonlocal state
        state = (state * 1664525 + 1013904223) % 2**32
        return state >> 24

    for y in range(height):
        for x in range(width):
            light = (plate[y * side + x] if x < side else 215) * (400 - x) // 400
            last = chance()
            green = 255 - light if last < 3 else light
            red, blue = green // 2 + y // 4, chance() // 4
            out += bytes([green] if format == 1 else [red, green, blue, last][:format])
            gray.append(green if format == 1 else (54 * red + 183 * green + 19 * blue + 128) // 256)
        out += bytes(chance() for _ in range(gap))
    return out, gray


def hashed(data):
    h = 0xCBF29CE484222325
    for byte in data:
        h = (h ^ byte) * 0x100000001B3 % 2**64
    return h


def lent(data, size):
    """A slice of so many bytes and the tail, with data over its front, and its hash."""
    return size + tail, hashed(data + bytes(k % 251 for k in range(len(data), size + tail)))


def expected(what, format):
    picture, gray = draw(format)
    payload = struct.pack("<IIIB8I", width, height, width * format + gap, format, *lengths) + picture
    answer = bytes.fromhex(oracle("answer", struct.pack("<BI", 96, len(payload)) + payload))
    number, count = answer[:2]
    detections, lent_slices = answer[1 : 2 + 122 * count], answer[2 + 122 * count + 24 :]  # between them the grades
    assert number == 0 and len(lent_slices) == 12 * 8
    values = {n: struct.unpack_from("<IQ", lent_slices, 12 * i) for i, n in enumerate(slices)}
    assert values["gray"] == lent(gray, pixels)
    values["detections"] = lent(detections.ljust(367, b"\0"), 367)
    lines = oracle("listing", struct.pack("<HH", width, height) + gray).split("\n")
    finders = [[int(n, 16) for n in l.split()[:3]] + [int(l.split()[3])] for l in lines[1 : 1 + int(lines[0].split()[2])]]
    head = struct.pack("<BHHH", 2, width, height, len(finders))
    pairs = b"".join(struct.pack("<II", *f[:2]) for f in finders) + b"".join(struct.pack("<II", *f[2:]) for f in finders)
    values["list"] = lent(head + pairs, len(head) + 16 * max_finders)
    assert len(set(values.values())) == 10
    say = lambda names: "".join("  %s %d %016x\n" % (n, *values[n]) for n in names)
    print(f"{len(finders)} finders, {count} detections", file=sys.stderr)
    sys.stdout.write(f"plate_chain, {what}: 0\n" + say(slices + ["detections"]) + f"plate_preview, {what}: 0\n" + say(slices + ["list"]))
    sys.stdout.write(f"plate_gray, {what}: 0\n" + say(["gray"]) + "plate_binarize: 0\n" + say(blocks + ["bits"]))
    sys.stdout.write("plate_denoised: 0\n" + say(["denoised"]) + "plate_finders: 0\n" + say(["list"]) + "plate_candidates: 0\n" + say(["detections"]))


print("lengths for 16 x 8: 128 16 2", flush=True)
for name, number in ("gray8", 1), ("rgb8", 3), ("rgba8", 4):
    expected(name, number)
