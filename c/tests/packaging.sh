# shellcheck shell=bash disable=SC2015,SC2016,SC2154
# Tests of the header, of building and of installing. c/test reads this file; `folder` is an empty
# folder, and `flags` are those of the tests.

strict=(-Wall -Wextra -Wshadow -Wpedantic -Werror)
version=$(sed -n 's/^version = "\(.*\)"/\1/p' ../rust/c/Cargo.toml)
# Commands that a machine has which installs a tarball, and neither rt nor cargo nor a compiler.
plain=(awk cat chmod cmp cp find grep gzip install ln make mkdir mv rm sed sh sha256sum tar true)

# Runs a command with only these commands on the path.
with_plain_path() {
  local command
  if [ ! -d "$folder/bin" ]; then
    mkdir "$folder/bin"
    for command in "${plain[@]}"; do ln -s "$(command -v "$command")" "$folder/bin/"; done
  fi
  env -u RUST -u CARGO PATH="$folder/bin" "$@"
}

# Whether a command fails with a message that matches: PATTERN COMMAND..
fails_with() {
  local pattern=$1
  shift
  if "$@" >"$folder/said" 2>&1 || ! grep -qE -- "$pattern" "$folder/said"; then
    cat "$folder/said" >&2
    return 1
  fi
}

# The header compiles alone, without a warning: LANGUAGE COMPILER STANDARD..
header_alone() {
  local language=$1 compiler=$2 standard
  shift 2
  for standard; do
    "$compiler" -std="$standard" "${strict[@]}" -fsyntax-only -x "$language" linkinfo.h || return 1
  done
}

# In C++ the types of results need no word `struct`.
names_in_cpp() {
  cat >"$folder/names.cpp" <<'END'
#include "linkinfo.h"
int main() {
  linkinfo_error error = linkinfo_check(nullptr, 0);
  linkinfo_same_result same = linkinfo_same(nullptr, 0, nullptr, 0);
  linkinfo_count_result count = linkinfo_count(nullptr, 0);
  linkinfo_canon_result canon = linkinfo_canon(nullptr, 0, nullptr, 0);
  return error.cause == LINKINFO_CAUSE_NONE && same.same && count.count == 0 &&
                 canon.status == LINKINFO_CANON_WRITTEN
             ? 0
             : 1;
}
END
  c++ -std=c++11 "${strict[@]}" -I. -o "$folder/names" "$folder/names.cpp" liblinkinfo.a &&
    "$folder/names"
}

# The compiler warns of each result that is dropped, of all calls that are so declared.
dropped() {
  local wanted standard language
  wanted=$(grep -c '^LINKINFO_NODISCARD ' linkinfo.h)
  [ "$wanted" = "$(grep -c '^  linkinfo_' tests/dropped.c)" ] || return 1
  for standard in c90 c11 c++11 c++17; do
    language=c
    if [[ $standard = c++* ]]; then language=c++; fi
    [ "$(cc -std=$standard -I. -c -x $language -o "$folder/dropped.o" tests/dropped.c 2>&1 |
      grep -c 'Wunused-result')" = "$wanted" ] || { echo "$standard" >&2; return 1; }
  done
}

# The header is not for machines on which the library does not work.
other_machines() {
  local big=(-Wno-builtin-macro-redefined -D__BYTE_ORDER__=__ORDER_BIG_ENDIAN__)
  fails_with 'error.*big-endian' cc -fsyntax-only "${big[@]}" -x c linkinfo.h &&
    fails_with 'error.*not 64 bits' cc -fsyntax-only -U__SIZE_MAX__ -D__SIZE_MAX__=0xffffffffU \
      -ffreestanding -x c linkinfo.h
}

header_columns() { ! grep -nE '.{81}' linkinfo.h >&2; }

# The header, the crates and the names of the library have one version.
versions() {
  local major=${version%%.*} rest=${version#*.}
  grep -qxF "version = \"$version\"" ../rust/Cargo.toml &&
    diff <(grep '^#define LINKINFO_VERSION' linkinfo.h) - <<END &&
#define LINKINFO_VERSION_MAJOR $major
#define LINKINFO_VERSION_MINOR ${rest%.*}
#define LINKINFO_VERSION_PATCH ${rest#*.}
#define LINKINFO_VERSION_STRING "$version"
END
    [ -f "liblinkinfo.so.$version" ] &&
    readelf -d liblinkinfo.so | grep -qF "soname: [liblinkinfo.so.$major]"
}

# A program of a user is built by pkg-config, in C90, C11 and C++17, and runs:
# FOLDER-OF-LIBRARIES FOLDER-OF-PKGCONFIG.
user_program() {
  local libraries=$1 standard language
  export PKG_CONFIG_PATH=$2
  sed -n '/^ \*   #include/,/^ \*   }$/s/^ \* \{0,3\}//p' linkinfo.h >"$folder/example.h"
  for standard in c90 c11 c++17; do
    language=c
    if [[ $standard = c++* ]]; then
      command -v c++ >/dev/null || continue
      language=c++
    fi
    # shellcheck disable=SC2046
    cc -std=$standard "${strict[@]}" -I"$folder" -x $language tests/user.c -x none \
      -o "$folder/user" $(pkg-config --cflags --libs linkinfo) || return 1
    LD_LIBRARY_PATH=$libraries "$folder/user" 2>"$folder/said" ||
      { echo "$standard: $?" >&2; return 1; }
  done
}

# The library is installed below a prefix, and pkg-config finds it there, also after a move.
installed() {
  make install PREFIX="$folder/usr" >"$folder/make" 2>&1 || { cat "$folder/make" >&2; return 1; }
  export PKG_CONFIG_PATH=$folder/usr/lib/pkgconfig
  # shellcheck disable=SC2046
  cc -std=c11 -o "$folder/show" examples/show.c $(pkg-config --cflags --libs linkinfo) &&
    [ "$(pkg-config --modversion linkinfo)" = "$version" ] &&
    LD_LIBRARY_PATH="$folder/usr/lib" example "$folder/show" &&
    user_program "$folder/usr/lib" "$folder/usr/lib/pkgconfig" &&
    mv "$folder/usr" "$folder/moved" &&
    user_program "$folder/moved/lib" "$folder/moved/lib/pkgconfig" &&
    mv "$folder/moved" "$folder/usr"
}

# DESTDIR precedes the paths of installed files; the file for pkg-config has paths from the prefix.
installed_elsewhere() {
  local root=$folder/root lib=usr/lib/x86_64-linux-gnu
  make install PREFIX=/usr LIBDIR=/$lib DESTDIR="$root" URL=https://example.org/linkinfo \
    >"$folder/make" 2>&1 &&
    diff - "$root/$lib/pkgconfig/linkinfo.pc" <<PC &&
prefix=\${pcfiledir}/../../..
includedir=\${prefix}/include
libdir=\${prefix}/lib/x86_64-linux-gnu

Name: linkinfo
Description: Reads, checks, compares and canonicalizes the contents of IFLA_LINKINFO
URL: https://example.org/linkinfo
License: MIT
Version: $version
Libs: -L\${libdir} -llinkinfo
Cflags: -I\${includedir}
PC
    [ "$(readlink "$root/$lib/liblinkinfo.so")" = liblinkinfo.so.0 ] &&
    [ "$(readlink "$root/$lib/liblinkinfo.so.0")" = "liblinkinfo.so.$version" ] &&
    [ -f "$root/usr/include/linkinfo.h" ] && [ -f "$root/usr/share/man/man3/linkinfo.3" ] &&
    make uninstall PREFIX=/usr LIBDIR=/$lib DESTDIR="$root" >"$folder/make" 2>&1 &&
    [ -z "$(find "$root" ! -type d)" ]
}

# A clone of what is here, in a folder that is there: the files that git tracks, or would.
clone_here() {
  (cd .. && git ls-files -coz --exclude-standard | xargs -0 cp --parents -t "$1") &&
    git -C "$1" init -q && git -C "$1" add -A &&
    git -C "$1" -c user.name=test -c user.email=test@localhost commit -qm all
}

# What README says of C, word for word, in a clone with the archive that is built. It prints what
# the attribute is, and changes no file of the clone.
readme() {
  local clone=$folder/clone archive=crates/linkinfo_c/out/liblinkinfo_c.a
  local cargo=${CARGO_HOME:-$HOME/.cargo} rustup=${RUSTUP_HOME:-$HOME/.rustup}
  mkdir "$clone" && clone_here "$clone" || return 1
  if [ -z "${RUST:-}" ]; then
    mkdir -p "$clone/${archive%/*}" && cp "../$archive" "$clone/$archive" || return 1
  fi
  awk '/^From C/ { on = 1 } on && /^    / { print substr($0, 5); seen = 1; next } seen { exit }' \
    ../README.md >"$folder/readme"
  (cd "$clone" && HOME=$folder/home CARGO_HOME=$cargo RUSTUP_HOME=$rustup bash "$folder/readme") \
    >"$folder/said" 2>&1
  [ "$(tail -n 1 "$folder/said")" = '0: type 1, 4 bytes' ] &&
    [ -z "$(git -C "$clone" status --porcelain)" ] ||
    { tail -n 20 "$folder/said" >&2; git -C "$clone" status --porcelain >&2; return 1; }
}

# Outside the prefix the file for pkg-config has whole paths.
installed_outside() {
  local pc=$folder/outside/else/linkinfo.pc
  make install PREFIX=/usr LIBDIR=/lib64 pkgconfigdir=/else DESTDIR="$folder/outside" \
    >"$folder/make" 2>&1 && grep -qx 'prefix=/usr' "$pc" && grep -qx 'libdir=/lib64' "$pc" &&
    grep -qxF 'includedir=${prefix}/include' "$pc" && ! grep -q '^URL' "$pc"
}

files_here() { find . -type f -printf '%p %T@ %s\n' | sort; }

# Installing changes no file here and runs no compiler, though a source is younger than the library.
install_builds_nothing() {
  files_here >"$folder/before"
  with_plain_path make install PREFIX="$folder/plain" -W linkinfo.h -W version.c \
    -W ../rust/c/src/lib.rs >"$folder/make" 2>&1 || { cat "$folder/make" >&2; return 1; }
  files_here | cmp - "$folder/before"
}

# Where nothing is built and nothing can be, make says what to do.
nothing_built() {
  local bare=$folder/bare/c
  mkdir -p "$bare" && touch "$folder/bare/crates.txt" &&
    cp -r Makefile linkinfo.h linkinfo.map linkinfo.pc.in man.awk version.c "$bare" &&
    fails_with 'no liblinkinfo.a is built: run make' make -C "$bare" install DESTDIR="$bare/to" &&
    fails_with 'no command rt here: install .* or install from a tarball' \
      with_plain_path make -C "$bare" &&
    fails_with 'no command cargo here: install .* or install from a tarball' \
      with_plain_path make -C "$bare" RUST=1 &&
    [ ! -d "$bare/to" ]
}

# The tarball installs on a machine without a compiler, and names each file that was changed.
distributed() {
  local archive top
  echo 'a log of the gate' >"$folder/log" &&
    make dist LOG="$folder/log" >"$folder/make" 2>&1 || { cat "$folder/make" >&2; return 1; }
  archive=$(echo "linkinfo-$version"-*.tar.gz)
  cp "$archive" "$folder/first.tar.gz" && sleep 1 &&
    make dist LOG="$folder/log" >"$folder/make" 2>&1 &&
    cmp "$archive" "$folder/first.tar.gz" && rm "$archive" && mkdir "$folder/clean" &&
    tar -C "$folder/clean" -xzf "$folder/first.tar.gz" || return 1
  top=$folder/clean/${archive%.tar.gz}
  cmp "$folder/log" "$top/gate.log" && grep -q '^built by \(rt\|cargo\)$' "$top/BUILD" &&
    with_plain_path make -C "$top" check >"$folder/make" 2>&1 &&
    with_plain_path make -C "$top" install PREFIX="$folder/clean/usr" 2>"$folder/said" \
      >"$folder/make" && cmp - "$folder/said" </dev/null &&
    cmp liblinkinfo.a "$folder/clean/usr/lib/liblinkinfo.a" &&
    user_program "$folder/clean/usr/lib" "$folder/clean/usr/lib/pkgconfig" &&
    echo >>"$top/linkinfo.h" && fails_with 'linkinfo.h: FAILED' make -C "$top" check
}

# Each call has a page, which is formatted without a warning and names the call.
pages() {
  local call
  cc -E -P linkinfo.h | grep -oE '\blinkinfo_[a-z_]+\(' | tr -d '(' | sort -u >"$folder/calls"
  diff <({ echo linkinfo; cat "$folder/calls"; } | sort) \
    <(find man -name '*.3' | sed 's|man/||; s|\.3$||' | sort) || return 1
  while read -r call; do
    groff -man -ww -Tutf8 "man/$call.3" 2>"$folder/warnings" >"$folder/page" &&
      [ ! -s "$folder/warnings" ] && grep -q "$call(" "$folder/page" ||
      { echo "$call" >&2; cat "$folder/warnings" >&2; return 1; }
  done <"$folder/calls"
}

# Compiled and linked a second time, the libraries are the same.
built_twice() {
  cp liblinkinfo.a "liblinkinfo.so.$version" "$folder" || return 1
  if [ -n "${RUST:-}" ]; then
    ${CARGO:-cargo} clean --quiet --manifest-path ../rust/c/Cargo.toml --release
  else
    rm -f ../crates/linkinfo_c/out/liblinkinfo_c.a
  fi
  rm -f version.o liblinkinfo.a
  make >"$folder/make" 2>&1 || { tail -n 20 "$folder/make" >&2; return 1; }
  cmp liblinkinfo.a "$folder/liblinkinfo.a" &&
    cmp "liblinkinfo.so.$version" "$folder/liblinkinfo.so.$version"
}

# A program with a shadow stack keeps it, with either library. The note is true: no instruction
# takes another stack.
shadow_stack() {
  ! objdump -d liblinkinfo.so | grep -E ',%rsp$' |
    grep -vE '(add|sub|and|cmp) +[^ ]*,%rsp$|(lea|mov) +[^ ]*%rbp[^ ]*,%rsp$' >&2 &&
    readelf -n liblinkinfo.so | grep -q 'x86 feature:.* SHSTK' &&
    echo 'int main(void) { return 0; }' >"$folder/shadow.c" &&
    cc -fcf-protection -c -o "$folder/shadow.o" "$folder/shadow.c" &&
    ld -r -o "$folder/both.o" "$folder/shadow.o" --whole-archive liblinkinfo.a &&
    readelf -n "$folder/both.o" | grep -q 'x86 feature:.* SHSTK'
}

# Built with IBT=1, each call begins with a mark, no jump goes by a table, and the archive says so.
branches_marked() {
  local top=$folder/ibt
  mkdir -p "$top/c" && cp -r Makefile linkinfo.h linkinfo.map man.awk version.c "$top/c" &&
    ln -s "$PWD/../rust" "$top/rust" || return 1
  make -C "$top/c" RUST=1 IBT=1 CARGO_TARGET_DIR="$top/target" liblinkinfo.a >"$folder/make" 2>&1 ||
    { tail -n 20 "$folder/make" >&2; return 1; }
  objdump -d "$top/c/liblinkinfo.a" >"$folder/code" &&
    [ "$(grep -A1 '^[0-9a-f]* <linkinfo_[a-z_]*>:$' "$folder/code" | grep -c endbr64)" = \
      "$(grep -c '^LINKINFO_NODISCARD \|^size_t linkinfo' linkinfo.h)" ] &&
    ! grep -E 'jmp +\*(%|.*,[48]\))' "$folder/code" >&2 &&
    readelf -n "$top/c/liblinkinfo.a" | grep -q 'x86 feature: IBT, SHSTK' &&
    cc "${flags[@]}" -o "$folder/marked" tests/differences.c "$top/c/liblinkinfo.a" &&
    "$folder/marked"
}

# From a signal in a call, a backtrace finds the caller.
backtrace_passes() {
  cc "${flags[@]}" -o "$folder/backtrace" tests/backtrace.c liblinkinfo.a && "$folder/backtrace"
}
