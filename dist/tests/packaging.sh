#!/usr/bin/env bash
# Installs and removes the library, and looks at what is installed. The last line is
# `N passed, M failed`.
set -uo pipefail
cd "$(dirname "$0")/.."
unset MAKEFLAGS MAKELEVEL DESTDIR PREFIX BINDIR LIBDIR INCLUDEDIR DATADIR MANDIR DOCDIR BUILD PROVED
unset CFLAGS CPPFLAGS LDFLAGS
work=$(mktemp -d)
trap 'rm -rf "$work"' EXIT
. tests/counts.sh

same() { diff <(printf '%s\n' "$1") <(printf '%s\n' "$2"); }
not() { ! "$@"; }
has_line() { # FILE PATTERN
    grep -Eq "$2" "$1"
}
build() { make BUILD="$work/build" "$@"; }

# ---- what is installed, with which modes, and that it can be removed

functions=$(sed -n 's/^ *\(sec1_[a-z0-9_]*\);$/\1/p' packaging/libsec1.map)
version=$(sed -n 's/^#define SEC1_VERSION_[A-Z]* \([0-9]*\)$/\1/p' sec1.h | paste -s -d .)
to="DESTDIR=$work/stage PREFIX=/usr LIBDIR=/usr/lib/x86_64-linux-gnu"
wanted() { # MODE PATH, or MODE PATH -> TARGET
    local page
    printf '644 %s\n' include/sec1.h $lib/cmake/sec1/sec1-config-version.cmake \
        $lib/cmake/sec1/sec1-config.cmake $lib/libsec1.a $lib/pkgconfig/sec1.pc \
        share/doc/sec1/{LICENSE-APACHE,LICENSE-MIT,README.md,CALLS.md,licences.txt} \
        share/doc/sec1/examples/key_parts.{c,py,rs} share/man/man3/sec1.3 \
        share/man/man1/sec1_dump.1 share/bash-completion/completions/sec1_dump
    printf '755 %s\n' "$lib/libsec1.so.$version" bin/sec1_dump
    printf '777 %s\n' "$lib/libsec1.so -> libsec1.so.0" "$lib/libsec1.so.0 -> libsec1.so.$version"
    for page in $functions; do echo "777 share/man/man3/$page.3 -> sec1.3"; done
}
lib=lib/x86_64-linux-gnu
check "make install, where new files are secret" eval "(umask 077 && build install $to)"
found() { find "$work/stage/usr" ! -type d -printf '%m %P -> %l\n' | sed 's/ -> $//'; }
check "what is installed" same "$(wanted | sort)" "$(found | sort)"
check "folders that everybody can read" \
    same "$(find "$work/stage/usr" -type d -printf '%m\n' | sort -u)" 755
shared=$work/stage/usr/$lib/libsec1.so.$version
archive=$work/stage/usr/$lib/libsec1.a
cp "$shared" "$work/first.so"
cp "$archive" "$work/first.a"
check "the licences" cmp ../LICENSE-MIT "$work/stage/usr/share/doc/sec1/LICENSE-MIT"
check "nothing names the stage" not grep -rq "$work" "$work/stage"

# ---- the shared library

readelf -dlnVW "$shared" > "$work/elf"
nm -D --defined-only "$shared" | awk '$2 == "T" {print $3}' > "$work/exported"
check "its soname" has_line "$work/elf" 'SONAME.*\[libsec1\.so\.0\]'
check "it needs the C library alone" \
    same "$(sed -n 's/.*NEEDED.*\[\(.*\)\]/\1/p' "$work/elf")" libc.so.6
check "it exports what the header declares, in the version SEC1_0" \
    same "$(sort "$work/exported")" "$(sed 's/$/@@SEC1_0/' <<< "$functions")"
check "the version script names what the header declares" \
    same "$functions" "$(grep -o '\bsec1_[a-z0-9_]*(' sec1.h | tr -d '(' | LC_ALL=C sort -u)"
check "relocations are done at the start" has_line "$work/elf" 'FLAGS_1.*NOW'
check "and can't be written later" has_line "$work/elf" 'GNU_RELRO'
check "its text has no relocations" not has_line "$work/elf" 'TEXTREL'
check "its stack isn't executed" has_line "$work/elf" 'GNU_STACK.* RW '
check "it allows branch tracking and a shadow stack" \
    has_line "$work/elf" 'x86 feature:.*IBT, SHSTK'
objdump -d --no-show-raw-insn "$shared" > "$work/code"
check "each exported function begins with endbr64" same "$(wc -w <<< "$functions")" \
    "$(grep -A 1 '^[0-9a-f]* <sec1_[a-z0-9_]*>:$' "$work/code" | grep -c endbr64)"
check "each jump of a table is marked" not grep -E ':\s+jmp +\*%' "$work/code"
check "it has tables to unwind the stack" eval "readelf --debug-dump=frames-interp '$shared' 2>&1 |
    grep -c FDE | grep -qxE '[1-9][0-9]+'"

# ---- the same bytes

check "made again" eval "rm -rf '$work/build' && build install $to"
check "the same shared library" cmp "$work/first.so" "$shared"
check "the same archive" cmp "$work/first.a" "$archive"
mkdir -p "$work/elsewhere"
cp -r Makefile header.c sec1.h sec1_dump.c sec1-*.s packaging "$work/elsewhere"
debugged="-O2 -g"
check "with debug information" eval "build clean all CFLAGS='$debugged'"
check "and in another folder" make -C "$work/elsewhere" CFLAGS="$debugged"
for file in "libsec1.so.$version" libsec1.a sec1_dump; do
    check "the same $file in another folder" \
        cmp "$work/build/$file" "$work/elsewhere/build/$file"
done

# ---- what the Makefile takes

check "make clean" build clean
flags="CFLAGS=-Ome CPPFLAGS=-Dme LDFLAGS=-Wl,--me"
build -n CC=mycc $flags | tr -s '\\\n\t ' ' ' > "$work/would"
check "CC, CPPFLAGS and CFLAGS are taken" grep -q 'mycc .* -Dme -Ome -c' "$work/would"
check "and LDFLAGS" grep -q 'mycc -Ome -shared .* -Wl,--me' "$work/would"
places="DESTDIR=$work/other PREFIX=/p BINDIR=/b LIBDIR=/l INCLUDEDIR=/i MANDIR=/m DOCDIR=/d"
check "make install elsewhere" eval "build install $places"
check "the folders are taken" same "$(cd "$work/other" && ls)" "$(printf '%s\n' b d i l m p)"
check "sec1.pc names them" \
    same "$(sed -n 's/^[a-z]*dir=//p' "$work/other/l/pkgconfig/sec1.pc")" "$(printf '/l\n/i')"
# In a folder for documents that is shared, and beside files that others have in the folders.
shared_places="DESTDIR=$work/shared PREFIX=/usr DOCDIR=/usr/share/doc"
check "make install beside others" eval "build install $shared_places"
others="usr/lib/cmake/sec1/other.cmake usr/share/doc/examples/other.c usr/share/doc/other/README
    usr/share/man/man3/other.3"
for file in $others; do
    mkdir -p "$(dirname "$work/shared/$file")"
    echo other > "$work/shared/$file"
done
for target in "$to" "$places" "$shared_places"; do
    check "make uninstall" eval "build uninstall $target"
done
check "nothing is left" same "$(find "$work/stage" "$work/other" ! -type d)" ""
check "nor folders of its own" \
    same "$(find "$work/stage" "$work/other" -path '*/sec1*' -o -name examples)" ""
check "but what others have" \
    same "$(cd "$work/shared" && find usr ! -type d | sort)" "$(printf '%s\n' $others | sort)"

# ---- the version, and the page of the manual

heading=$(grep -m 1 '^## ' ../CHANGELOG.md)
check "the version of the CHANGELOG" \
    same "$(grep -oE '[0-9]+\.[0-9]+\.[0-9]+' <<< "$heading")" "$version"
if command -v groff > "$work/said"; then
    for page in sec1.3 sec1_dump.1; do
        check "$page has no fault" same "$(groff -man -Tutf8 -ww -z packaging/$page.in 2>&1)" ""
    done
fi
for option in $("$work/build/sec1_dump" --help | grep -o -- '--[a-z]*' | sort -u); do
    check "the page of sec1_dump has $option" grep -q "${option//-/\\\\-}" packaging/sec1_dump.1.in
    check "the completion has $option" grep -q -- " '*$option" packaging/sec1_dump.bash
done
statuses=$(sed -n '/^enum sec1_status/,/^}/s/^ *\(SEC1_[A-Z_]*\) = .*/\1/p' sec1.h)
for word in $functions $statuses; do
    check "the page has $word" grep -q "\b$word\b" packaging/sec1.3.in
done
finish
