# What the benchmarks of judging begin with, from the top of the repository: the program, which is built already, clang
# beside it, and a folder for their texts.
program=crates/clv/out/clv
for tool in python3 clang; do
  command -v "$tool" >/dev/null || { echo "skipped: no $tool"; exit 0; }
done
[ -x "$program" ] || { echo "skipped: no $program (README.md says how to build it)"; exit 0; }
folder=$(mktemp -d)
trap 'rm -rf "$folder"' EXIT
