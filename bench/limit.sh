#!/usr/bin/env bash
# How long apv_enc takes for a frame under a size limit, beside a frame at a constant QP: 10 pictures of 1920x1080 samples in
# 4:2:2 with 10 bits, of waves and noise, in 40 tiles each, at QP 24, and under the limit that QP 24 just keeps (the size of
# the largest access unit at it). What is written goes to /dev/null. The times are the user times of the best of five runs.
#
#     bench/limit.sh [QP]
set -eu
top=$(cd "$(dirname "$0")/.." && pwd)
work=$(mktemp -d)
trap 'rm -rf "$work"' EXIT
"$top/apv_enc" --input - --width 16 --height 16 --chroma 400 --depth 10 --qp 0 --output /dev/null </dev/null
python3 - "$top/crates/apv_enc_program/out/apv_enc_program" "$work" "${1:-24}" <<'PY'
import array, math, random, resource, struct, subprocess, sys
program, work, qp = sys.argv[1:]
width, height, count = 1920, 1080, 10
random.seed(1)
noise = [random.randint(-20, 20) for _ in range(1 << 20)]


def plane(step):
    values = array.array("H")
    for y in range(height):
        start = random.randrange(len(noise) - width)
        values.extend(
            int(512 + 300 * math.sin(x / 37 + y / 53)) + noise[start + x] for x in range(0, width, step)
        )
    return values.tobytes()


picture = plane(1) + plane(2) + plane(2)
with open(f"{work}/in", "wb") as file:
    for _ in range(count):
        file.write(picture)
words = [program, "--input", f"{work}/in", "--width", str(width), "--height", str(height), "--chroma", "422", "--depth", "10"]


def frame_time(*options):
    """The least user time of a frame, in milliseconds."""
    times = []
    for _ in range(5):
        before = resource.getrusage(resource.RUSAGE_CHILDREN).ru_utime
        subprocess.check_call([*words, *options, "--output", "/dev/null"])
        times.append(resource.getrusage(resource.RUSAGE_CHILDREN).ru_utime - before)
    return min(times) / count * 1000


subprocess.check_call([*words, "--qp", qp, "--output", f"{work}/out"])
sizes = []
with open(f"{work}/out", "rb") as file:
    while head := file.read(4):
        (size,) = struct.unpack(">I", head)
        sizes.append(size)
        file.seek(size, 1)
constant, limited = frame_time("--qp", qp), frame_time("--limit", str(max(sizes)))
print(f"QP {qp}: {constant:.1f} ms a frame; limit {max(sizes)}: {limited:.1f} ms a frame, {limited / constant:.2f} times")
PY
