#!/usr/bin/env bash
# How fast apv_dec decodes, for several numbers of threads, and how much memory it takes: a file of 20 access units, each
# with one frame of 2048x1152 samples in 4:2:2 with 10 bits, in 72 tiles of 256x128, which are all the first tile of the
# sample. They have less than a bit a sample: finer pictures are decoded more slowly. The pictures are written to
# /dev/null. The speeds are those of the best of five runs.
set -eu
top=$(cd "$(dirname "$0")/.." && pwd)
work=$(mktemp -d)
trap 'rm -rf "$work"' EXIT
"$top/apv_dec" --input "$top/samples/hills.apv"
python3 - "$top/crates/apv_dec_program/out/apv_dec_program" "$top/samples/hills.apv" "$work/in" <<'PY'
import os, resource, struct, subprocess, sys, time
program, sample, path = sys.argv[1:]
columns, rows, units = 8, 9, 20
width, height = columns * 256, rows * 128

# the sample: au_size, signature and pbu_size, four bytes each, the PBU's header, and a frame header of 20 bytes
with open(sample, "rb") as file:
    unit = file.read()
pbu_header, frame_header, tiles = unit[12:16], bytearray(unit[16:36]), unit[36:]
frame_header[3:9] = width.to_bytes(3, "big") + height.to_bytes(3, "big")
(tile_size,) = struct.unpack(">I", tiles[:4])
tile = tiles[4 : 4 + tile_size]
body = pbu_header + frame_header
for index in range(columns * rows):
    body += struct.pack(">I", tile_size) + tile[:2] + struct.pack(">H", index) + tile[4:]
unit = b"aPv1" + struct.pack(">I", len(body)) + body
with open(path, "wb") as file:
    for _ in range(units):
        file.write(struct.pack(">I", len(unit)) + unit)

samples = units * width * height * 2
size = os.path.getsize(path)
for threads in (1, 2, 4):
    best = None
    for _ in range(5):
        start = time.perf_counter()
        words = ["--input", path, "--output", "/dev/null", "--threads", str(threads)]
        status = subprocess.call([program, *words])
        seconds = time.perf_counter() - start
        assert status == 0
        best = seconds if best is None else min(best, seconds)
    name = "1 thread" if threads == 1 else f"{threads} threads"
    print(
        f"{name}: {units / best:.0f} frames/s, {samples / best / 1e6:.0f} million samples/s, "
        f"{size / best / 1e6:.1f} MB/s of input"
    )
peak = resource.getrusage(resource.RUSAGE_CHILDREN).ru_maxrss
print(f"peak memory: {peak / 1024:.1f} MB")
PY
