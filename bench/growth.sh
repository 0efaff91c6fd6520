#!/usr/bin/env bash
# How time and memory of both programs grow with the size of pictures and with the length of a file: noisy pictures of
# 640x360 to 7680x4320 samples in 4:2:2 with 10 bits, encoded at QP 20 and decoded again, on one thread. Of each size the
# user time a sample, of the best of three runs, and the peak memory are told, beside the bytes of a frame's samples and of
# the largest access unit; and the memory of runs of 2 and of 100 units. What is written goes to /dev/null, or to files in
# a directory that is removed.
#
#     bench/growth.sh [SIZE..]    sizes as 1920x1080, all where none is given
set -eu
top=$(cd "$(dirname "$0")/.." && pwd)
work=$(mktemp -d)
trap 'rm -rf "$work"' EXIT
"$top/apv_dec" --input "$top/samples/hills.apv"
"$top/apv_enc" --input - --width 16 --height 16 --chroma 400 --depth 10 --qp 0 --output /dev/null </dev/null
python3 - "$top/crates" "$work" "$@" <<'PY'
import array, math, os, random, struct, sys, time
crates, work, *sizes = sys.argv[1:]
encoder, decoder = (f"{crates}/apv_{name}_program/out/apv_{name}_program" for name in ("enc", "dec"))
random.seed(1)
noise = [round(random.gauss(0, 12)) for _ in range(65536)]
wave = [round(512 + 300 * math.sin(i * math.pi / 2048)) for i in range(4096)]


def plane(width, height, across, down):
    """The samples of a component: waves, with other noise in each row."""
    values = array.array("H")
    for y in range(height):
        first = random.randrange(len(noise) - width)
        row = noise[first : first + width]
        values.extend([wave[(across * x + down * y) % 4096] + n for x, n in enumerate(row)])
    return values.tobytes()


def peak_of(pid):
    """The peak memory so far of a process in bytes, or None where it has ended."""
    with open(f"/proc/{pid}/status") as file:
        for line in file:
            if line.startswith("VmHWM:"):
                return int(line.split()[1]) * 1024
    return None


def run(words):
    """The user time of a run in seconds, and its peak memory in bytes, looked at each half millisecond. The peak that the
    system keeps for a process that has ended may be that of this script, which started it."""
    pid, peak = os.posix_spawn(words[0], words, os.environ), 0
    while True:
        ended, status, usage = os.wait4(pid, os.WNOHANG)
        if ended:
            assert status == 0, words
            return usage.ru_utime, peak
        peak = peak_of(pid) or peak
        time.sleep(0.0005)


def best(words):
    """The least time of three runs, and the greatest memory."""
    times, memory = zip(*(run(words) for _ in range(3)))
    return min(times), max(memory)


def largest_unit(path):
    """The bytes of the largest access unit of a file."""
    largest = 0
    with open(path, "rb") as file:
        while size := file.read(4):
            (size,) = struct.unpack(">I", size)
            largest = max(largest, size)
            file.seek(size, 1)
    return largest


def measure(width, height, count):
    """Makes a file of that many equal pictures, encodes it and decodes it. Returns what was found."""
    picture = plane(width, height, 18, 13) + 2 * plane(width // 2, height, 25, 9)
    with open(f"{work}/in", "wb") as file:
        for _ in range(count):
            file.write(picture)
    words = ["--width", str(width), "--height", str(height), "--chroma", "422", "--depth", "10", "--qp", "20"]
    encoding = [encoder, "--input", f"{work}/in", *words, "--threads", "1", "--output"]
    run([*encoding, f"{work}/apv"])
    enc_time, enc_memory = best([*encoding, "/dev/null"])
    dec_time, dec_memory = best([decoder, "--input", f"{work}/apv", "--output", "/dev/null", "--threads", "1"])
    samples = count * len(picture) // 2
    unit, size = largest_unit(f"{work}/apv"), len(picture)
    print(
        f"{width}x{height}, {count} units: encoder {enc_time / samples * 1e9:.2f} ns a sample,"
        f" {enc_memory / 1e6:.1f} MB, {enc_memory / size:.2f} frames; decoder {dec_time / samples * 1e9:.2f} ns a sample,"
        f" {dec_memory / 1e6:.1f} MB, {(dec_memory - unit) / size:.2f} frames beside a unit;"
        f" frame {size / 1e6:.1f} MB, unit {unit / 1e6:.1f} MB",
        flush=True,
    )
    os.remove(f"{work}/in")
    os.remove(f"{work}/apv")


for size in sizes or ["640x360", "1280x720", "1920x1080", "3840x2160", "7680x4320"]:
    width, height = (int(number) for number in size.split("x"))
    measure(width, height, max(2, min(16, 33177600 // (width * height))))
if not sizes:
    for count in (2, 100):
        measure(640, 360, count)
PY
