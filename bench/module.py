#!/usr/bin/env python3
"""Writes a module of about so many bytes that reads without a fault: a header like a kernel's, then functions of the
instructions that a kernel mostly consists of.

    module.py FILE BYTES
"""
import array
import sys

MAGIC, VERSION_1_3 = 0x07230203, 0x00010300


def text(characters):
    """A literal string (SPIR-V 2.2.1)."""
    padded = characters.encode() + b"\0" * (4 - len(characters) % 4)
    return [int.from_bytes(padded[i:i + 4], "little") for i in range(0, len(padded), 4)]


def main(name, size):
    words = array.array("I", [MAGIC, VERSION_1_3, 0, 0, 0])
    assert words.itemsize == 4 and sys.byteorder == "little"

    def put(op, *operands):
        words.append((1 + len(operands)) << 16 | op)
        words.extend(operands)

    void, of_void, number, truth, buffer, block, pointer, zero, one, data, inside = range(1, 12)
    ids = 12
    put(17, 1)                                  # OpCapability Shader
    put(14, 0, 1)                               # OpMemoryModel Logical GLSL450
    put(15, 5, ids, *text("main"))              # OpEntryPoint GLCompute
    put(16, ids, 17, 64, 1, 1)                  # OpExecutionMode LocalSize
    put(5, data, *text("data"))                 # OpName
    put(71, block, 2)                           # OpDecorate Block
    put(71, data, 34, 0)                        # OpDecorate DescriptorSet
    put(71, data, 33, 0)                        # OpDecorate Binding
    put(71, buffer, 6, 4)                       # OpDecorate ArrayStride
    put(72, block, 0, 35, 0)                    # OpMemberDecorate Offset
    put(19, void)
    put(33, of_void, void)
    put(21, number, 32, 0)
    put(20, truth)
    put(29, buffer, number)
    put(30, block, buffer)
    put(32, pointer, 12, block)
    put(32, inside, 12, number)
    put(43, number, zero, 0)
    put(43, number, one, 1)
    put(59, pointer, data, 12)
    while words[3] == 0 or 4 * len(words) < size:
        put(54, void, ids, 0, of_void)          # OpFunction
        put(248, ids + 1)                       # OpLabel
        ids += 2
        for _ in range(64):
            at, old, sum_, product, test, then, after = range(ids, ids + 7)
            ids += 7
            put(65, inside, at, data, zero, one)    # OpAccessChain
            put(61, number, old, at)            # OpLoad
            put(128, number, sum_, old, one)    # OpIAdd
            put(132, number, product, sum_, old)    # OpIMul
            put(62, at, product)                # OpStore
            put(176, truth, test, sum_, product)    # OpULessThan
            put(247, after, 0)                  # OpSelectionMerge
            put(250, test, then, after)         # OpBranchConditional
            put(248, then)                      # OpLabel
            put(62, at, sum_)                   # OpStore
            put(249, after)                     # OpBranch
            put(248, after)                     # OpLabel
        put(253)                                # OpReturn
        put(56)                                 # OpFunctionEnd
        words[3] = ids                          # the bound
    with open(name, "wb") as file:
        words.tofile(file)


main(sys.argv[1], int(sys.argv[2]))
