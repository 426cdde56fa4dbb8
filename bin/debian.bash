# What bin/release makes for Debian, over bin/build.bash, bin/library.bash and bin/put.bash: `make_packages FOLDER` makes the packages
# heavy, libheavy1 and libheavy-dev there. It wants "$version", "$maintainer" and SOURCE_DATE_EPOCH.
# shellcheck shell=bash disable=SC2154
places_of_libraries=usr/lib/x86_64-linux-gnu

# The least version of the C library that a program or library asks for.
least_libc() { grep -ao 'GLIBC_[0-9][0-9.]*' "$1" | sort -uV | tail -n 1 | sed 's/^GLIBC_//'; }

# Debian's changelog of a package, made of CHANGELOG.md.
changelog_for() {
  local number date
  sed -n 's/^## \[\([0-9][0-9.]*\)\] - \(.*\)$/\1 \2/p' "$top/CHANGELOG.md" | while read -r number date; do
    printf '%s (%s) unstable; urgency=medium\n\n' "$1" "$number"
    awk -v head="## [$number]" '
      function tell() { if (entry) print entry; entry = "" }
      index($0, "## [") == 1 { inside = index($0, head) == 1; next }
      !inside { next }
      /^- / { tell(); entry = substr($0, 3); next }
      /^  / && entry { entry = entry " " substr($0, 3); next }
      { tell() }
      END { tell() }' "$top/CHANGELOG.md" | while IFS= read -r entry; do
      printf '%s\n' "$entry" | fold -s -w 74 | sed -e '1s/^/  * /' -e '2,$s/^/    /' -e 's/ *$//'
    done
    printf '\n -- %s  %s\n\n' "$maintainer" "$(date -u -R -d "$date 00:00:00 UTC")"
  done
}

# A licence's text, as the file copyright has it.
indented() { sed -e 's/^ *$/./' -e 's/^/ /' "$1"; }

# The holders of the copyright that a crate's licences name, or its authors.
holders_of() {
  local found
  found=$(sed -n 's/^Copyright \((c)\|©\)\{0,1\} *\([^[{].*\)$/\2/p' "$@" | sort -u | sed '2,$s/^/ /')
  printf '%s\n' "${found:-the authors of $(basename "$(dirname "$1")")}"
}

# The file copyright: our licences, and those of the crates of the toolchain that are compiled in.
copyright_text() {
  local name folder files
  cat << END
Format: https://www.debian.org/doc/packaging-manuals/copyright-format/1.0/
Upstream-Name: heavy
Comment: What is compiled in of the toolchain stands here as toolchain/NAME.

Files: *
Copyright: $(sed -n 's/^Copyright (c) //p' "$top/LICENSE-MIT")
License: Expat or Apache-2.0
END
  for folder in "$licences"/*/; do
    name=$(basename "$folder")
    files=("$folder"/LICENSE*)
    printf '\nFiles: toolchain/%s/*\nCopyright: %s\nLicense: ' "$name" "$(holders_of "${files[@]}")"
    if ! grep -qs 'Apache License' "${files[@]}"; then echo Expat
    elif grep -qs 'Permission is hereby granted' "${files[@]}"; then echo 'Expat or Apache-2.0'
    else echo Apache-2.0; fi
  done
  printf '\nLicense: Expat\n'
  sed -n '/^Permission/,$p' "$top/LICENSE-MIT" | indented -
  printf '\nLicense: Apache-2.0\n On Debian systems the full text of this licence is in\n'
  printf ' /usr/share/common-licenses/Apache-2.0.\n'
}

# Makes a package of the tree in a folder of that name in "$1": adds its papers, sums and control, and packs it.
pack() {
  local tree="$1/$2" papers="$1/$2/usr/share/doc/$2" libc=
  mkdir -p "$papers" "$tree/DEBIAN"
  copyright_text > "$papers/copyright"
  changelog_for "$2" | gzip -n9 > "$papers/changelog.gz"
  case $2 in
    heavy) libc=$(least_libc "$tree/usr/bin/heavy") ;;
    libheavy1) libc=$(least_libc "$tree/$places_of_libraries/libheavy.so.1") ;;
  esac
  (cd "$tree" && find usr -type f -print0 | sort -z | xargs -0 md5sum > DEBIAN/md5sums)
  sed -e "s/@VERSION@/$version/" -e "s/@LIBC@/$libc/" -e "s/@MAINTAINER@/$maintainer/" \
    -e "s/@SIZE@/$(kilobytes_in "$tree/usr")/" "$top/packaging/debian/$2.control" > "$tree/DEBIAN/control"
  chmod -R u=rwX,go=rX "$tree"
  find "$tree" -exec touch -h -d "@$SOURCE_DATE_EPOCH" {} +
  dpkg-deb --root-owner-group -Zxz --threads-max=1 --build "$tree" "$1/${2}_${version}_amd64.deb" > /dev/null
}

# How many kilobytes the files in a folder have.
kilobytes_in() {
  find "$1" -type f -exec wc -c {} \; | awk '{ all += int(($1 + 1023) / 1024) } END { print all + 0 }'
}

tree_of_program() {
  local tree="$1/heavy/usr" name
  install -D -m 755 "$built" "$tree/bin/heavy"
  "${STRIP:-strip}" --remove-section=.comment --remove-section=.note "$tree/bin/heavy"
  mkdir -p "$tree/share/man/man1"
  gzip -n9 < "$top/man/heavy.1" > "$tree/share/man/man1/heavy.1.gz"
  install -D -m 644 "$top/completions/heavy.bash" "$tree/share/bash-completion/completions/heavy"
  install -D -m 644 "$top/completions/_heavy" "$tree/share/zsh/vendor-completions/_heavy"
  install -D -m 644 "$top/completions/heavy.fish" "$tree/share/fish/vendor_completions.d/heavy.fish"
  while read -r name; do
    # Debian has a changelog of its own
    [ "$name" = CHANGELOG.md ] || install -D -m "$(mode_of "$top/$name")" "$top/$name" "$tree/share/doc/heavy/$name"
  done < <(pages)
}

tree_of_library() {
  local tree="$1/libheavy1" name
  install -D -m 644 "$2/libheavy.so.1" "$tree/$places_of_libraries/libheavy.so.1"
  "${STRIP:-strip}" --remove-section=.comment --remove-section=.note "$tree/$places_of_libraries/libheavy.so.1"
  mkdir -p "$tree/DEBIAN"
  echo "libheavy 1 libheavy1 (>= $version)" > "$tree/DEBIAN/shlibs"
  echo 'activate-noawait ldconfig' > "$tree/DEBIAN/triggers"
  {
    echo 'libheavy.so.1 libheavy1 #MINVER#'
    echo '* Build-Depends-Package: libheavy-dev'
    for name in HEAVY_1 $(calls_of_library); do echo " $name@HEAVY_1 $version"; done | sort
  } > "$tree/DEBIAN/symbols"
}

tree_for_development() {
  local tree="$1/libheavy-dev"
  install -D -m 644 "$top/include/heavy.h" "$tree/usr/include/heavy.h"
  install -D -m 644 "$2/libheavy.a" "$tree/$places_of_libraries/libheavy.a"
  "${STRIP:-strip}" --strip-debug --remove-section=.comment --remove-section=.note --enable-deterministic-archives \
    "$tree/$places_of_libraries/libheavy.a"
  ln -s libheavy.so.1 "$tree/$places_of_libraries/libheavy.so"
  make_description "$2" /usr lib/x86_64-linux-gnu
  install -D -m 644 "$2/heavy.pc" "$tree/$places_of_libraries/pkgconfig/heavy.pc"
  install -D -m 644 "$top/docs/C.md" "$tree/usr/share/doc/libheavy-dev/C.md"
}

# Makes the packages in a folder, of the library that was made in another.
make_packages() {
  local name
  tree_of_program "$1"
  tree_of_library "$1" "$2"
  tree_for_development "$1" "$2"
  for name in heavy libheavy1 libheavy-dev; do pack "$1" "$name"; done
}
