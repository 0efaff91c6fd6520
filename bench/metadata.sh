#!/usr/bin/env bash
# How fast payload bytes pass through apv_dec, and how much memory it takes: a file of 64 access units, each with one
# metadata PBU of about 1 MB.
set -eu
top=$(cd "$(dirname "$0")/.." && pwd)
work=$(mktemp -d)
trap 'rm -rf "$work"' EXIT
"$top/apv_dec" --input "$top/samples/metadata.apv" --metadata "$work/warm"
python3 - "$top/crates/apv_dec_program/out/apv_dec_program" "$work" <<'PY'
import os, resource, struct, subprocess, sys, time
program, work = sys.argv[1:]
size = 1_000_000
payload = bytes([5]) + b"\xff" * (size // 255) + bytes([size % 255]) + bytes(i & 0x7F for i in range(size))
body = struct.pack(">I", len(payload)) + payload
pbu = struct.pack(">I", len(body) + 4) + bytes([66, 0, 1, 0]) + body
unit = b"aPv1" + pbu
with open(f"{work}/in", "wb") as file:
    for _ in range(64):
        file.write(struct.pack(">I", len(unit)) + unit)
best = None
for _ in range(5):
    start = time.perf_counter()
    status = subprocess.call([program, "--input", f"{work}/in", "--metadata", f"{work}/out"])
    seconds = time.perf_counter() - start
    assert status == 0
    best = seconds if best is None else min(best, seconds)
assert os.path.getsize(f"{work}/out") == 64 * len(payload)
peak = resource.getrusage(resource.RUSAGE_CHILDREN).ru_maxrss
print(f"payload bytes: {64 * len(payload) / best / 1e6:.0f} MB/s, peak memory: {peak / 1024:.1f} MB")
PY
