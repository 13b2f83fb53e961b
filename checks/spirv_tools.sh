#!/usr/bin/env bash
# Compiles the examples with the built program and asks the SPIR-V tools about the modules.
# It stands outside the gate, and is skipped where the tools or the program are missing.
set -u
cd "$(dirname "$0")/.." || exit 1
clv=crates/clv/out/clv
for tool in spirv-val spirv-dis; do
  command -v "$tool" >/dev/null || { echo "skipped: no $tool (Debian's package spirv-tools has it)"; exit 0; }
done
[ -x "$clv" ] || { echo "skipped: no $clv (README.md says how to build it)"; exit 0; }
folder=$(mktemp -d)
trap 'rm -rf "$folder"' EXIT
failed=0
for source in examples/*.cl; do
  module=$folder/$(basename "$source" .cl).spv
  "$clv" compile "$source" "$module" || failed=1
  spirv-val --target-env vulkan1.1 "$module" || failed=1
  listing=$(spirv-dis --no-color "$module") || failed=1
  for line in Kernel ArgumentInfo ArgumentStorageBuffer SpecConstantWorkgroupSize; do
    grep -q "OpExtInst .* $line " <<<"$listing" || { echo "$source: no reflection line $line"; failed=1; }
  done
done
[ "$failed" = 0 ] && echo "the SPIR-V tools accept the modules of the examples"
exit "$failed"
