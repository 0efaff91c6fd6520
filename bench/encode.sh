#!/usr/bin/env bash
# How fast apv_enc encodes, for several numbers of threads, and how much memory it takes: 20 pictures of 1920x1080 samples
# in 4:2:2 with 10 bits, drawn anew from waves and noise, at QP 20, in 40 tiles each. The access units are written to
# /dev/null.
set -eu
top=$(cd "$(dirname "$0")/.." && pwd)
work=$(mktemp -d)
trap 'rm -rf "$work"' EXIT
"$top/apv_enc" --input - --width 16 --height 16 --chroma 400 --depth 10 --qp 0 --output /dev/null </dev/null
python3 - "$top/crates/apv_enc_program/out/apv_enc_program" "$work" <<'PY'
import array, math, os, random, resource, subprocess, sys, time
program, work = sys.argv[1:]
width, height, count = 1920, 1080, 20
random.seed(1)
rows = [
    [int(512 + 300 * math.sin(x / 37 + y / 53) + random.randint(-20, 20)) for x in range(width)]
    for y in range(0, height, 8)
]

def plane(step):
    values = array.array("H")
    for y in range(height):
        values.extend(rows[y // 8][::step])
    return values.tobytes()

picture = plane(1) + plane(2) + plane(2)
with open(f"{work}/in", "wb") as file:
    for _ in range(count):
        file.write(picture)
words = ["--input", f"{work}/in", "--width", str(width), "--height", str(height), "--chroma", "422", "--depth", "10"]
words += ["--qp", "20"]
subprocess.check_call([program, *words, "--output", f"{work}/out"])
size = os.path.getsize(f"{work}/out")
for threads in (1, 2, 4):
    best = None
    for _ in range(3):
        start = time.perf_counter()
        assert subprocess.call([program, *words, "--output", "/dev/null", "--threads", str(threads)]) == 0
        seconds = time.perf_counter() - start
        best = seconds if best is None else min(best, seconds)
    name = "1 thread" if threads == 1 else f"{threads} threads"
    samples = count * len(picture) / 2
    print(f"{name}: {count / best:.1f} frames/s, {samples / best / 1e6:.0f} million samples/s, {size / best / 1e6:.0f} MB/s of output")
peak = resource.getrusage(resource.RUSAGE_CHILDREN).ru_maxrss
print(f"peak memory: {peak / 1024:.1f} MB")
PY
