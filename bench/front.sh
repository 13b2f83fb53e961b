#!/usr/bin/env bash
# Times the judging of texts, which is tokens, macros, grammar and typing so far, at 256 KiB, 512 KiB and 1 MiB, beside
# what clang takes for the syntax and types of the same text. It stands outside the gate: times depend on the
# machine, so only ratios within one run mean anything. Each time is the least of fifteen runs of the whole process,
# less that of a text of a few bytes. The texts are ordinary kernels, which are refused by code 900 once they are
# judged.
set -u
cd "$(dirname "$0")/.." || exit 1
. bench/judging.sh
PYTHONDONTWRITEBYTECODE=1 PYTHONPATH=bench python3 - "$program" "$folder" <<'PYTHON'
import sys

from beside_clang import Judging

KERNEL = """
/* Sums rows of a matrix, with a weight for each column, and keeps the greatest.
 * `scratch` has a place for each work-item of a group; `width` is the number of columns. */
#define WEIGHT_%(n)d(x) ((x) * 3 + %(n)d)
typedef struct { int sum; int4 parts; uint count[4]; } row_%(n)d;

int greatest_%(n)d(int a, int b) {
    return a < b ? b : a; // no branches
}

__kernel void rows_%(n)d(__global const int *matrix, __global int *sums, int width, __local int *scratch) {
    uint row = get_global_id(0), lane = get_local_id(0);
    int sum = 0, most = INT_MIN;
    for (int column = 0; column < width; column++) {
        int value = matrix[row * width + column];
        if ((value & 1) != 0)
            sum += WEIGHT_%(n)d(value);
        else
            sum -= value >> 2;
        most = greatest_%(n)d(most, value);
    }
    scratch[lane] = sum;
    barrier(CLK_LOCAL_MEM_FENCE);
    switch (lane %% 4u) {
    case 0: sum += scratch[0]; break;
    case 1: case 2: sum ^= 0x5a5au; break;
    default: sum = ~sum;
    }
    int4 v = (int4)(sum, most, 1, 2);
    do { v.x += v.y * 2; sum--; } while (sum > 100 && v.x < 1000);
    sums[row] = v.x + (int)sizeof(row_%(n)d) + (sum << 3);
}
"""


def text(size):
    parts, length = [], 0
    while True:
        part = KERNEL % {"n": len(parts)}
        if length + len(part) > size:
            return "".join(parts)
        parts.append(part)
        length += len(part)


judging = Judging(*sys.argv[1:], runs=15)
print("%8s %9s %9s %8s" % ("bytes", "clv s", "clang s", "ratio"))
rows = []
for size in (1 << 18, 1 << 19, 1 << 20):
    mine, other = judging.times(size, text(size))
    rows.append(mine)
    print("%8d %9.3f %9.3f %8.2f" % (size, mine, other, mine / other))
print("512 KiB take %.2f times 256 KiB, and 1 MiB %.2f times 512 KiB" % (rows[1] / rows[0], rows[2] / rows[1]))
if mine > 3 * other:
    sys.exit("the text of 1 MiB takes over three times as long as clang")
PYTHON
