#!/usr/bin/env bash
# Times the judging of texts of up to 262,144 tokens that burden the typing rules in one way each: many declarations in one
# block, many blocks, many functions, many types, long lists, and ordinary kernels; each at a quarter, a half and the
# whole of that, beside what clang takes for the syntax and types of the same text. It stands outside the gate: times
# depend on the machine, so only ratios within one run mean anything. Each time is the least of seven runs of the whole
# process, less that of a text of a few bytes. The texts keep the typing rules, and are refused by code 900 once they are judged.
set -u
cd "$(dirname "$0")/.." || exit 1
. bench/judging.sh
PYTHONDONTWRITEBYTECODE=1 PYTHONPATH=bench python3 - "$program" "$folder" <<'PYTHON'
import sys

from beside_clang import Judging

TOKENS = 262144 - 64

KERNEL = "__kernel void k(__global int*a){"


def declarations(n):
    """Seven tokens each."""
    return KERNEL + "int x0=1;" + "".join("int x%d=x%d+1;" % (i, i // 2) for i in range(1, n // 7)) + "a[0]=x%d;}" % (n // 7 - 1)


def blocks(n):
    """Seventeen tokens each."""
    return KERNEL + "int y=0;" + "".join("{int x=y;{int y=x;y++;}}" for _ in range(n // 17)) + "a[0]=y;}"


def functions(n):
    """Sixteen tokens each."""
    return "int f0(int x){return x;}" + "".join("int f%d(int x){return f%d(x)+x;}" % (i, i // 2) for i in range(1, n // 16)) + KERNEL + "a[0]=f%d(1);}" % (n // 16 - 1)


def types(n):
    """Up to seventeen tokens each, of a struct with the one before among its members at times."""
    parts = ["struct S0{int x;};"]
    for i in range(1, n // 17):
        inner = "struct S%d" % (i - 1) if i % 8 else "int"
        parts.append("typedef struct S%d{%s s;short t[%d];}T%d;" % (i, inner, i % 4093 + 1, i))
    return "".join(parts) + KERNEL + "a[0]=1;}"


def lists(n):
    """Two tokens for each number, in lists of 4,096."""
    many = n // 2 // 4096
    rows = ["__constant int t%d[]={%s};" % (i, ",".join(str(i * 4096 + j) for j in range(4080))) for i in range(many)]
    return "".join(rows) + KERNEL + "a[0]=t0[1];}"


def kernels(n):
    parts = []
    for i in range(n // 142):
        parts.append("__kernel void k%d(__global const int*m,__global int*s,int w,__local int*t){uint r=get_global_id(0),l=get_local_id(0);"
                     "int u=0;for(int c=0;c<w;c++){int v=m[r*w+c];if((v&1)!=0)u+=v;else u-=v>>2;}t[l]=u;barrier(1);"
                     "int4 q=(int4)(u,1,2,3);q.x+=q.y*2;s[r]=q.x;}" % i)
    return "".join(parts)


judging = Judging(*sys.argv[1:], runs=7)
print("%-14s %8s %9s %9s %8s %7s" % ("text", "tokens", "clv s", "clang s", "ratio", "growth"))
steep = []
for shape in (declarations, blocks, functions, types, lists, kernels):
    before = None
    for tokens in (TOKENS // 4, TOKENS // 2, TOKENS):
        mine, other = judging.times("%s_%d" % (shape.__name__, tokens), shape(tokens))
        growth = mine / before if before else 0.0
        print("%-14s %8d %9.3f %9.3f %8.2f %7s" % (shape.__name__, tokens, mine, other, mine / other, "%.2f" % growth if before else ""))
        before = mine
    if growth > 2.8:
        steep.append(shape.__name__)
if steep:
    sys.exit("twice the tokens take over 2.8 times as long: " + ", ".join(steep))
PYTHON
