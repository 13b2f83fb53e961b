#!/usr/bin/env bash
# Times steps of the machine: at 64, 1,024 and 16,384 work-items, and with buffers of 64 KiB and 16 MiB.
# The cost of a step is not to grow with either. It stands outside the gate: times depend on the machine, so
# only ratios within one run mean anything. Each time is the least of three runs of the whole process, less
# that of a run of one work-item over the same buffer.
set -u
cd "$(dirname "$0")/.." || exit 1
program=crates/clv/out/clv
command -v python3 >/dev/null || { echo "skipped: no python3"; exit 0; }
[ -x "$program" ] || { echo "skipped: no $program (README.md says how to build it)"; exit 0; }
folder=$(mktemp -d)
trap 'rm -rf "$folder"' EXIT
exec python3 - "$program" "$folder" <<'PYTHON'
import subprocess
import sys
import time

program, folder = sys.argv[1:]
source = folder + "/k.cl"
with open(source, "w") as file:
    terms = "+".join(["get_global_id(0)"] * 20)
    file.write("__kernel void k(__global uint *a){a[get_global_id(0)]=%s;}" % terms)


def least(items, size):
    """The least of three times of a run of so many work-items over a buffer of so many bytes, and its steps."""
    launch, buffer = folder + "/k.launch", folder + "/a"
    with open(launch, "w") as file:
        file.write("kernel k\nglobal %d\nlocal 1\narg 0 buffer %s\n" % (items, buffer))
    times = []
    for _ in range(3):
        with open(buffer, "wb") as file:
            file.truncate(size)
        start = time.perf_counter()
        done = subprocess.run([program, "run", source, launch], stdout=subprocess.PIPE, text=True)
        times.append(time.perf_counter() - start)
        if done.returncode != 0:
            sys.exit("failed: %s" % done.stdout)
    return min(times), int(done.stdout.split()[1])


print("%9s %9s %9s %12s" % ("items", "buffer", "steps", "ns a step"))
costs = []
for items, size in ((64, 1 << 16), (1024, 1 << 16), (16384, 1 << 16), (1024, 1 << 24)):
    base, one = least(1, size)
    taken, steps = least(items, size)
    costs.append((taken - base) / (steps - one) * 1e9)
    print("%9d %9d %9d %12.0f" % (items, size, steps, costs[-1]))
print("16,384 items take %.2f times a step of 1,024, and 16 MiB %.2f times 64 KiB" % (costs[2] / costs[1], costs[3] / costs[1]))
PYTHON
