# What bin/install, bin/install-library, bin/wheel and bin/release share, over bin/build.bash: `build_library` builds
# the library for C where its sources are newer than what was built, and `make_library FOLDER PREFIX` makes there what
# is installed below that PREFIX. CC, AR, LD and OBJCOPY may name the compiler, ar, ld and objcopy.
# shellcheck shell=bash disable=SC2154
library="$top/crates/heavy_ffi"
archive="$library/out/libheavy_ffi.a"
# the toolchain's own few functions of C that the library calls, kept so that an installation needs no toolchain
functions="$library/out/liblibc_c.a"

# Whether there is what the libraries are made with: a C compiler and ar.
has_compiler() { command -v "${CC:-cc}" > /dev/null && command -v "${AR:-ar}" > /dev/null; }

# Whether there is what proves and builds.
has_toolchain() { command -v rt > /dev/null; }

# Whether the library is there, as its sources are.
is_library_built() {
  local crates
  mapfile -t crates < <(crates_of heavy_ffi)
  ! is_stale "$archive" "${crates[@]}" && [ -f "$functions" ]
}

build_library() {
  ! is_library_built || return 0
  has_toolchain || { tell "the toolchain's command, rt, is not on the path"; return 1; }
  build heavy_ffi "$archive" "proving and building the library for C; crates/*/build.log have its lines" || return 1
  cp "$(toolchain)/c/liblibc_c.a" "$functions"
}

# The calls that the header declares.
calls_of_library() { sed -n -E 's/^(uint32_t|size_t|void) (heavy_[a-z_]*)\(.*/\2/p' "$top/include/heavy.h"; }

# Whether there is what hides the names of a static library that are no calls.
can_hide() { command -v "${LD:-ld}" > /dev/null && command -v "${OBJCOPY:-objcopy}" > /dev/null; }

# Makes of the static library in this folder one object, which shows the calls of the header and nothing else.
hide_others() {
  can_hide || { tell "there is no ld or no objcopy, so libheavy.a shows names beside those of heavy.h"; return 0; }
  (
    cd "$1"
    calls_of_library > names
    "${LD:-ld}" -r -o heavy.o --whole-archive libheavy.a
    "${OBJCOPY:-objcopy}" --keep-global-symbols=names heavy.o
    rm libheavy.a
    "${AR:-ar}" rcs libheavy.a heavy.o
  )
}

# The static library in this folder: the calls of the header over the proved ones, and the toolchain's own few functions of C.
# A compiler that knows malloc may call calloc in its place, which the header doesn't name.
make_static() {
  cp "$archive" "$1/libheavy.a"
  chmod u+w "$1/libheavy.a"
  awk -f "$top/bin/calls.awk" "$top/include/heavy.h" > "$1/calls.c"
  "${CC:-cc}" -std=c11 -O2 -fPIC -fno-builtin "-I$top/include" -c "$1/calls.c" -o "$1/calls.o"
  (cd "$1" && "${AR:-ar}" x "$functions" && "${AR:-ar}" rs libheavy.a ./*.o 2> /dev/null)
  hide_others "$1"
}

# The shared library beside it, which shows the calls of the header and nothing else.
make_shared() {
  { echo 'HEAVY_1 { global:'; calls_of_library | sed 's/$/;/'; echo 'local: *; };'; } > "$1/heavy.map"
  "${CC:-cc}" -shared -o "$1/libheavy.so.1" -Wl,-soname,libheavy.so.1 "-Wl,--version-script=$1/heavy.map" \
    -Wl,--whole-archive "$1/libheavy.a" -Wl,--no-whole-archive -Wl,--gc-sections -Wl,-z,defs,-z,relro,-z,now -s
}

# What pkg-config tells, with the program's version, for a prefix and the folder of libraries in it, lib if not given.
make_description() {
  cat > "$1/heavy.pc" << END
prefix=$2
includedir=\${prefix}/include
libdir=\${prefix}/${3:-lib}

Name: heavy
Description: Proved summaries of the heavy keys of weighted records
Version: $(version_of_program)
Cflags: -I\${includedir}
Libs: -L\${libdir} -lheavy
END
}

# What is installed of the library, in this folder, for that prefix.
make_library() { make_static "$1" && make_shared "$1" && make_description "$1" "$2"; }
