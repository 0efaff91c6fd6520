#!/usr/bin/env bash
# How fast apv_dec and apv_enc are beside another program, in one run: both programs take the same files in turn, on 1 and on
# 4 threads, and the ratio of their times is told, real and user; above 1 ours is faster. The times are those of the best of
# five runs. What is written goes to /dev/null, or to a file that is removed.
#
#     bench/compare.sh decode 'COMMAND' FILE..    APV files
#     bench/compare.sh encode 'COMMAND' FILE..    Y4M files, which ours encodes at QP 20, or at the QP that QP= names
#
# COMMAND is the other program's command line, with {in}, {out} and {threads} for the file that is read, the one that is
# written and the number of threads:
#
#     bench/compare.sh decode 'ffmpeg -v error -threads {threads} -f apv -i {in} -f rawvideo -y {out}' a.apv b.apv
#     bench/compare.sh encode 'ffmpeg -v error -threads {threads} -i {in} -c:v prores_aw -y {out}.mov' video.y4m
set -eu
top=$(cd "$(dirname "$0")/.." && pwd)
[ $# -ge 3 ] || { sed -n '2,15s/^# \{0,1\}//p' "$0" >&2; exit 2; }
work=$(mktemp -d)
trap 'rm -rf "$work"' EXIT
"$top/apv_dec" --input "$top/samples/hills.apv"
"$top/apv_enc" --input - --width 16 --height 16 --chroma 400 --depth 10 --qp 0 --output /dev/null </dev/null
python3 - "$top/crates" "$work/out" "${QP:-20}" "$@" <<'PY'
import os, resource, shlex, subprocess, sys, time
crates, out, qp, way, other, *files = sys.argv[1:]
ours = {
    "decode": f"{crates}/apv_dec_program/out/apv_dec_program --input {{in}} --output /dev/null --threads {{threads}}",
    "encode": f"{crates}/apv_enc_program/out/apv_enc_program --input {{in}} --form y4m --qp {qp} --output /dev/null"
    " --threads {threads}",
}[way]


def once(command, path, threads):
    """The real and the user time of a run, in seconds."""
    words = [
        word.replace("{in}", path).replace("{out}", out).replace("{threads}", str(threads))
        for word in shlex.split(command)
    ]
    before, start = resource.getrusage(resource.RUSAGE_CHILDREN).ru_utime, time.perf_counter()
    status = subprocess.call(words, stdin=subprocess.DEVNULL)
    real, user = time.perf_counter() - start, resource.getrusage(resource.RUSAGE_CHILDREN).ru_utime - before
    if status != 0:
        sys.exit(f"status {status}: {shlex.join(words)}")
    return real, user


def times(other, ours):
    """How many times ours the other time is."""
    return f"{other / ours:.2f} times" if ours > 0 else "too short to compare"


for path in files:
    for threads in (1, 4):
        runs = [(once(ours, path, threads), once(other, path, threads)) for _ in range(5)]
        (real, user), (other_real, other_user) = (tuple(min(runs) for runs in zip(*side)) for side in zip(*runs))
        print(
            f"{os.path.basename(path)}, threads {threads}: real {real:.2f} s against {other_real:.2f},"
            f" {times(other_real, real)}; user {user:.2f} s against {other_user:.2f}, {times(other_user, user)}"
        )
PY
