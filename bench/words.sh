#!/usr/bin/env bash
# Times reading and writing of modules, beside what spirv-dis takes for the same file, and at 4, 8 and 16 MiB.
# It stands outside the gate: times depend on the machine, so only ratios within one run mean anything.
# Each time is the least of five runs of the whole process, less the same of one step before: loading is taken
# off reading, and reading off writing; a module of a few KiB is taken off the time of spirv-dis.
set -u
cd "$(dirname "$0")/.." || exit 1
program=crates/bench_words/out/bench_words
for tool in python3 spirv-dis; do
  command -v "$tool" >/dev/null || { echo "skipped: no $tool (spirv-dis is in Debian's package spirv-tools)"; exit 0; }
done
[ -x "$program" ] || { echo "skipped: no $program (\`rt run\` in crates/bench_words builds it)"; exit 0; }
folder=$(mktemp -d)
trap 'rm -rf "$folder"' EXIT
exec python3 - "$program" "$folder" <<'PYTHON'
import subprocess
import sys
import time

program, folder = sys.argv[1:]


def least(*command):
    """The least of five times, in seconds."""
    times = []
    for _ in range(5):
        start = time.perf_counter()
        done = subprocess.run(command, stdout=subprocess.PIPE, stderr=subprocess.PIPE, text=True)
        times.append(time.perf_counter() - start)
        if done.returncode != 0:
            sys.exit("failed: %s\n%s" % (" ".join(command), done.stderr))
    return min(times), done.stdout.strip()


def module(mebibytes):
    name = "%s/%d.spv" % (folder, mebibytes)
    subprocess.run([sys.executable, "bench/module.py", name, str(mebibytes << 20)], check=True)
    return name


small = module(0)
base = least("spirv-dis", "-o", "/dev/null", small)[0]
rows = []
print("%4s %12s %14s %9s %9s %11s %10s %11s" % (
    "MiB", "bytes", "instructions", "read s", "write s", "spirv-dis s", "read/dis", "write/dis"))
for mebibytes in (4, 8, 16):
    name = module(mebibytes)
    load, size = least(program, "load", name)
    read, count = least(program, "read", name)
    write, copied = least(program, "write", name)
    if size.split()[1] != copied.split()[1]:
        sys.exit("%s was not copied: %s, %s" % (name, size, copied))
    other = least("spirv-dis", "-o", "/dev/null", name)[0] - base
    read, write = read - load, write - read
    rows.append((read, write))
    print("%4d %12s %14s %9.3f %9.3f %11.3f %10.3f %11.3f" % (
        mebibytes, size.split()[1], count.split()[1], read, write, other, read / other, write / other))
for step, at in (("read", 0), ("write", 1)):
    print("%s: 8 MiB takes %.2f times 4 MiB, and 16 MiB %.2f times 8 MiB" % (
        step, rows[1][at] / rows[0][at], rows[2][at] / rows[1][at]))
if rows[2][0] > other:
    sys.exit("reading takes longer than spirv-dis")
PYTHON
