# What `run` and `against` share, sourced at the repository's root: compilers, limits, and how the parts are built.
if ! command -v gcc >/dev/null || ! command -v clang >/dev/null; then
  echo "gcc or clang is missing, and both are installed now, by apt-get" >&2
  { apt-get update -q && apt-get install -y -q gcc libc6-dev clang; } ||
    echo "bench: without gcc and clang the table lacks a compiler"
fi
out=target/bench
mkdir -p "$out"
machine=$(uname -m)
warnings="-std=c11 -Wall -Wextra"

# limit NAME [FOLDER]: a limit of the repository there, or of this one, from the one place in the code where it stands
limit() {
  sed -n "s/^pub const $1: [a-z0-9]* = \([0-9]*\);.*/\1/p" "${2:-.}"/crates/plan/src/*.rt | grep . ||
    { echo "bench: no file of crates/plan/src has 'pub const $1: ... = ...;'" >&2; return 1; }
}
columns=$(limit MOST_COLUMNS)
pairs=$(limit MOST_PAIRS)
limits="-DMOST_COLUMNS=$columns -DMOST_PAIRS=$pairs"

# a kit of links, but for rt, which goes by where it lies, and for a clang that keeps the module that it is handed
kit=$(cd "$(dirname "$(rt doc)")" && pwd -P)
clang=$kit/toolchain/bin/clang
tools=$(mktemp -d)
trap 'rm -rf "$tools"' EXIT
mkdir -p "$tools/kit/bin" "$tools/kit/toolchain/bin" "$tools/kept"

# links_to FROM TO: links in TO to what FROM holds, where TO has nothing of the name
links_to() {
  for part in "$1"/*; do
    [ -e "$2/$(basename "$part")" ] || ln -s "$part" "$2/"
  done
}
cp "$kit/bin/rt" "$kit/bin/rtlib.py" "$tools/kit/bin/"
cat >"$tools/kit/toolchain/bin/clang" <<WRAP
#!/bin/sh
for word in "\$@"; do case \$word in *.bc | *.ll) [ ! -f "\$word" ] || cp "\$word" "$tools/kept/" ;; esac; done
exec "$clang" "\$@"
WRAP
chmod +x "$tools/kit/toolchain/bin/clang"
links_to "$kit" "$tools/kit"
links_to "$kit/bin" "$tools/kit/bin"
links_to "$kit/toolchain" "$tools/kit/toolchain"
links_to "$kit/toolchain/bin" "$tools/kit/toolchain/bin"

# object FOLDER NAME: proves and compiles `speed_c` of the repository there. $out/NAME.ll is the compiler's module, and
# $out/NAME.o its code for the machine at hand: on x86-64 the library as shipped, elsewhere the same module compiled.
object() {
  rm -f "$tools/kept"/*
  # a library that is up to date is not compiled again, and its module would not be seen
  rm -f "$1/crates/speed_c/out/libspeed_c.a"
  (cd "$1/crates/speed_c" && "$tools/kit/bin/rt" lib) >"$out/staticlib.log" 2>&1 ||
    { tail -n 20 "$out/staticlib.log"; return 1; }
  cp "$1/crates/speed_c/out/libspeed_c.a" "$out/libspeed.a"     # the name that its callers link
  module=$(find "$tools/kept" -type f | head -n 1)
  "$clang" -x ir "$module" -S -emit-llvm -Xclang -disable-llvm-passes --target=x86_64-unknown-linux-gnu -o "$out/$2.ll"
  if [ "$machine" = x86_64 ]; then
    ld -r --whole-archive "$out/libspeed.a" -o "$out/$2.o"
    return
  fi
  sed -E -e 's/^target datalayout = .*/target datalayout = "e-m:e-i8:8:32-i16:16:32-i64:64-i128:128-n32:64-S128-Fn32"/' \
    -e "s/^target triple = .*/target triple = \"$machine-unknown-linux-gnu\"/" -e 's/"target-cpu"="x86-64[^"]*"//' \
    -e 's/ byval\([^)]*\) (align [0-9]+)/ \1/g' "$out/$2.ll" >"$out/$2.native.ll"
  "$clang" --target="$machine-unknown-linux-gnu" --no-default-config -x ir -fPIC -O3 -c "$out/$2.native.ll" -o "$out/$2.o"
}

# harness NAME OBJECT...: what NAME.c runs, linked to $out/NAME. The objects' code begins at pages: where a loop lies in
# a line of the cache can change its time by a tenth, and this must not hang on what is linked beside it.
harness() {
  name=$1
  shift
  for part in "$@"; do objcopy --set-section-alignment '.text*=4096' "$part"; done
  gcc -O2 $warnings $limits bench/picture.c bench/measure.c bench/rows.c bench/blocks.c bench/late.c "bench/$name.c" "$@" \
    -o "$out/$name"
}
