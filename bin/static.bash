# What bin/release and tests/release.py share, over bin/build.bash and bin/library.bash: `link_static FILE` links the
# program statically, from the very object that the build linked. CC may name the compiler.
# shellcheck shell=bash disable=SC2154
object="$program/out/heavy_cli.o"

# Whether the object is there of which the built program was linked: linked once more, it gives the same bytes.
has_object() (
  [ -f "$object" ] && [ -f "$built" ] || exit 1
  kit=$(toolchain)
  scratch=$(mktemp -d)
  trap 'rm -rf "$scratch"' EXIT
  "$kit/bin/rattle-link" --target x86_64-unknown-linux-gnu --toolchain "$kit/toolchain" -o "$scratch/heavy" "$object" \
    "$kit/c/libos_c.a" "$kit/c/liblibc_c.a" > /dev/null 2>&1 && cmp -s "$scratch/heavy" "$built"
)

# Whether the compiler links statically.
links_static() (
  scratch=$(mktemp -d)
  trap 'rm -rf "$scratch"' EXIT
  echo 'int main(void) { return 0; }' | "${CC:-cc}" -static -xc - -o "$scratch/program" 2> /dev/null
)

# Links the program statically, as this file, with further words for the linker.
link_static() {
  local kit file=$1
  shift
  kit=$(toolchain)
  "${CC:-cc}" -static -Wl,--build-id=none -s -o "$file" "$object" "$@" "$kit/c/libos_c.a" "$kit/c/liblibc_c.a"
}
