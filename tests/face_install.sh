#!/usr/bin/env bash
# The C part as a library that is installed: what `make install` writes and where, and that
# `make uninstall` leaves none of it; programs that are built by the words of pkg-config alone; the
# names, their versions, and that the library stays once it is opened; a packager's flags, with
# which the library is as it has to be; Debian's packages; its processor; the manual page under each
# call's name; the header in each edition of C and C++ that the compilers here know. All of it in a
# folder that is removed afterwards. Requires face/out to be built, as tests/face.sh has it. What a
# missing program leaves out is said in a line of its own. Prints the cases that fail; the last line
# counts.
source "$(dirname "$0")/cases.sh"
tree=$seen/tree
version=$(sed -n 's/^version := //p' face/Makefile)
soname=libcivdrax.so.${version%%.*}
calls=$(sed -n 's/.*\(civdrax_[a-z]*\)(.*/\1/p' face/civdrax.h | sort)
warnings=(-Wall -Wextra -Werror -pedantic)

# Whether the program $1 is here; else what is left out by that is said.
is_here() {
    command -v "$1" > /dev/null && return
    echo "face_install: LEFT OUT: $2: $1 is not here"
    return 1
}

# Whether standard input has a line like $1. It is read to its end: else its writer would fail.
has() { grep "$@" > "$seen/found"; }

# Makes what the words say in face/, without a proof.
made() {
    make -C face prove=true "$@" > "$seen/made" 2>&1
    count $? "make $*: $(tail -n 3 "$seen/made")"
}

# The files below a folder, but folders: path, and mode or where a link leads.
listed() {
    (cd "$1" && find . -type f -printf '%P %m\n' -o -type l -printf '%P %l\n' | sort)
}

# All files, with those of the folders $1, $2 and $3: libraries, headers and pages.
expected() {
    local it
    {
        printf '%s\n' "$1/libcivdrax.a 644" "$1/libcivdrax.so $soname" "$1/$soname 755" \
            "$1/libcivdrax_preload.so 755" "$1/pkgconfig/civdrax.pc 644" "$2/civdrax.h 644"
        for it in civdrax $calls; do echo "$3/man3/$it.3 644"; done
    } | sort
}

# Checks that these files are below the folder $1, and no others.
files() {
    [ "$(listed "$1")" = "$(expected "${@:2}")" ]
    count $? "other files are installed: $(diff <(listed "$1") <(expected "${@:2}"))"
}

# The installed library's words for a compiler, of the tree $2 and its folder $3.
words() {
    PKG_CONFIG_SYSROOT_DIR=$2 PKG_CONFIG_LIBDIR=$2$3/pkgconfig pkg-config $1 civdrax
}

install_and_link() {
    # The installing user has no `rt`, and nothing is built once more.
    mkdir "$seen/without"
    printf '#!/bin/sh\necho "%s is run"\nexit 1\n' rt > "$seen/without/rt"
    chmod +x "$seen/without/rt"
    PATH=$seen/without:$PATH made install DESTDIR="$tree" PREFIX=/opt/civdrax prove=false CC=false
    ! grep -q 'rt is run' "$seen/made"
    count $? 'to install, rt is run'
    files "$tree" opt/civdrax/{lib,include,share/man}
    ! grep -r "$seen" "$tree" > "$seen/found"
    count $? "a file that is installed has DESTDIR in it"
    local lib=$tree/opt/civdrax/lib
    cc "${warnings[@]}" -o "$seen/static" face/tests/installed.c -I"$tree/opt/civdrax/include" \
        "$lib/libcivdrax.a" -pthread && "$seen/static"
    count $? 'a program with the installed archive fails'
    is_here pkg-config 'programs that are built by its words' || return
    cc "${warnings[@]}" -o "$seen/shared" face/tests/installed.c \
        $(words '--cflags --libs' "$tree" /opt/civdrax/lib) \
        && LD_LIBRARY_PATH=$lib "$seen/shared"
    count $? 'a program that pkg-config has linked fails'
    readelf -d "$seen/shared" | has "(NEEDED).*\[$soname\]"
    count $? "a program does not want $soname"
    nm -D "$seen/shared" | has "U civdrax_msgget@CIVDRAX_${version%%.*}$"
    count $? 'a program wants no version of a call'
    [ "$(words --modversion "$tree" /opt/civdrax/lib)" = "$version" ]
    count $? "civdrax.pc has not the version $version"
    words '--libs --static' "$tree" /opt/civdrax/lib | has -- '-lcivdrax .*-pthread'
    count $? 'civdrax.pc does not say what the archive wants'
}

# Other folders, as packagers name them, and a prefix alone, of the environment.
folders() {
    made install DESTDIR="$seen/named" prefix=/usr libdir=/usr/lib/here mandir=/man \
        includedir=/usr/include/civ
    files "$seen/named" usr/lib/here usr/include/civ man
    PREFIX=$seen/home made install
    files "$seen/home" lib include share/man
    touch "$seen/home/lib/another"
    is_here pkg-config 'what civdrax.pc says of other folders' || return
    words '--cflags --libs' "$seen/named" /usr/lib/here > "$seen/words"
    grep -q -- "-I$seen/named/usr/include/civ " "$seen/words" \
        && grep -q -- "-L$seen/named/usr/lib/here " "$seen/words"
    count $? "civdrax.pc names other folders: $(cat "$seen/words")"
    cc "${warnings[@]}" -o "$seen/own" face/tests/installed.c "-Wl,-rpath,$seen/home/lib" \
        $(words '--cflags --libs' '' "$seen/home/lib") && "$seen/own"
    count $? 'a program with the library of a prefix of its own fails'
}

uninstall() {
    made uninstall DESTDIR="$tree" PREFIX=/opt/civdrax
    made uninstall PREFIX="$seen/home"
    [ -z "$(listed "$tree")" ] && [ "$(listed "$seen/home" | cut -d ' ' -f 1)" = lib/another ]
    count $? "uninstall leaves $(listed "$tree") $(listed "$seen/home")"
}

# The linked library's calls have a version; the preloaded library has none, as long as the programs
# that it is for need those of the C library.
versions() {
    local it
    for it in $calls; do
        nm -D face/out/libcivdrax.so | has " T $it@@CIVDRAX_${version%%.*}$"
        count $? "$it has no version"
    done
    readelf -V face/out/libcivdrax.so | has '^Version definition section'
    count $? 'no version is seen in libcivdrax.so'
    ! readelf -V face/out/libcivdrax_preload.so | has '^Version definition section'
    count $? 'libcivdrax_preload.so has versions: no call of a program comes to it'
}

# The library stays mapped once it is opened; another, not linked so, is found to be unmapped.
unload() {
    cc -std=gnu11 -Wall -Wextra -Werror -O1 -o "$seen/unload" face/tests/unload.c -pthread -ldl \
        && cc -shared -o "$seen/unloaded.so" -Wl,--whole-archive face/out/libcivdrax.a \
            -Wl,--no-whole-archive -pthread
    count $? 'face/tests/unload.c does not compile'
    timeout 60 "$seen/unload" "$PWD/face/out/libcivdrax.so" > "$seen/out" 2> "$seen/err"
    count $? "the library does not stay once it is opened: $(head -n 3 "$seen/err")"
    ! timeout 60 "$seen/unload" "$seen/unloaded.so" > "$seen/out" 2>&1 \
        && grep -q ' passed, [1-9]' "$seen/out"
    count $? 'a library that does not stay is not seen to go'
}

# A packager's flags are kept, and nothing that the sources need is lost by them.
flags() {
    local flags='-O1 -flto -fno-pic -fcf-protection=full -ffunction-sections' it
    made out="$seen/packaged" CFLAGS="$flags" CPPFLAGS=-D_FORTIFY_SOURCE=2 \
        LDFLAGS='-flto -Wl,-z,relro,-z,now'
    readelf -SW "$seen/packaged/civdrax.o" | has ' \.text\.civdrax_msgget '
    count $? 'CFLAGS are not kept'
    for it in "$soname" libcivdrax_preload.so; do
        readelf -d "$seen/packaged/$it" | has 'Flags:.* NOW'
        count $? "$it: LDFLAGS are not kept"
        ! readelf -d "$seen/packaged/$it" | has TEXTREL
        count $? "$it is not position-independent"
    done
    cc -o "$seen/packaged/static" face/tests/installed.c -Iface "$seen/packaged/libcivdrax.a" \
        -pthread && "$seen/packaged/static"
    count $? "a program with a packager's archive fails"
    cc -o "$seen/packaged/shared" face/tests/installed.c -Iface "$seen/packaged/libcivdrax.so" \
        "-Wl,-rpath,$seen/packaged" && "$seen/packaged/shared"
    count $? "a program with a packager's library fails"
    # Of the environment too; then nothing else is asked for.
    CFLAGS=-Os make -C face -n prove=true out="$seen/none" > "$seen/made" \
        && grep -q ' -Os .*-fPIC ' "$seen/made" && ! grep -q Wall "$seen/made"
    count $? 'CFLAGS of the environment are not kept'
}

# Each library says which processor it needs, and has no instruction that this one may not have.
processor() {
    local it later='v[a-z0-9]+|andn|bextr|bls[ir]|blsmsk|bzhi|lzcnt|movbe|mulx|pdep|pext|rorx'
    for it in libcivdrax.a libcivdrax.so libcivdrax_preload.so; do
        readelf -nW "face/out/$it" 2> "$seen/err" | has 'x86 ISA needed:.* x86-64-v2$'
        count $? "$it does not say which processor it wants"
        objdump -d --no-show-raw-insn "face/out/$it" > "$seen/code"
        grep -q 'call' "$seen/code" \
            && ! grep -E "^ +[0-9a-f]+:.($later|s[ahl][lr]x) " "$seen/code" > "$seen/later"
        count $? "$it has code for a later processor: $(head -n 3 "$seen/later")"
    done
}

# Debian's packages, of the sources that they need, and a program that is built over them.
packages() {
    local it source=$seen/packages/source root=$seen/packages/root lib pair
    [ "$(sed -n '1s/.*(\(.*\)).*/\1/p' debian/changelog)" = "$version" ]
    count $? "debian/changelog has not the version $version"
    for it in dpkg-buildpackage dh; do is_here $it "Debian's packages" || return; done
    mkdir -p "$source/face" "$source/crates/civdrax/out" "$root"
    cp -r debian "$source"
    cp face/Makefile face/*.[ch3] face/*.map face/*.in "$source/face"
    cp crates/civdrax/out/libcivdrax.a "$source/crates/civdrax/out"
    (cd "$source" && MAKEFLAGS=prove=true DEB_BUILD_OPTIONS=noautodbgsym dpkg-buildpackage -b) \
        > "$seen/made" 2>&1
    count $? "dpkg-buildpackage: $(tail -n 3 "$seen/made")"
    for it in libcivdrax0 libcivdrax-dev civdrax-preload; do
        dpkg-deb -x "$seen/packages/${it}_${version}_amd64.deb" "$root" 2> "$seen/err"
        count $? "there is no package $it"
    done
    lib=/usr/lib/$(dpkg-architecture -q DEB_HOST_MULTIARCH)
    for pair in "shared -lcivdrax" "static $root$lib/libcivdrax.a"; do
        cc "${warnings[@]}" -o "$seen/${pair%% *}" face/tests/installed.c -I"$root/usr/include" \
            -L"$root$lib" ${pair#* } -pthread && LD_LIBRARY_PATH=$root$lib "$seen/${pair%% *}"
        count $? "a ${pair%% *} program over the packages fails"
    done
    [ -f "$root$lib/libcivdrax_preload.so" ] \
        && [ -e "$root/usr/share/man/man3/civdrax_msgget.3.gz" ]
    count $? 'the packages lack the preloaded library or a page'
}

# Each call has its page, by its name, of which the first line names it.
pages() {
    local it man=$seen/named/man
    [ "$(sed -n 's/^\.Nm \(civdrax_[a-z]*\).*/\1/p' face/civdrax.3 | sort)" = "$calls" ]
    count $? 'the page does not name the calls of the header'
    for it in $calls; do
        [ -s "$man/$(sed -n 's/^\.so //p' "$man/man3/$it.3")" ]
        count $? "the page $it leads nowhere"
    done
    if is_here groff 'what it says of the page'; then
        groff -mdoc -Tutf8 -ww face/civdrax.3 > "$seen/page" 2> "$seen/err"
        [ $? -eq 0 ] && [ ! -s "$seen/err" ]
        count $? "face/civdrax.3: $(head -n 3 "$seen/err")"
    fi
    is_here man 'pages by the name of their call' || return
    for it in $calls; do
        MANPAGER=cat man -M "$man" 3 "$it" 2>&1 | sed -n '/^NAME/,/^SYN/p' | has "$it"
        count $? "man $it does not show it"
    done
}

# The header, without a warning, in each edition that the compiler $1 of the language $2 knows: as
# the only one, and where a program asks for all that there is.
editions() {
    local edition tried=0
    is_here "$1" "the header by $1" || return
    for edition in "${@:3}"; do
        "$1" "-std=$edition" -x "$2" -fsyntax-only /dev/null 2> "$seen/err" || continue
        tried=$((tried + 1))
        "$1" "-std=$edition" "${warnings[@]}" -Iface -x "$2" -fsyntax-only face/tests/installed.c \
            2> "$seen/err" && "$1" "-std=$edition" "${warnings[@]}" -D_GNU_SOURCE -Iface -x "$2" \
            -fsyntax-only face/tests/installed.c 2> "$seen/err"
        count $? "civdrax.h by $1 as $edition: $(head -n 3 "$seen/err")"
    done
    [ "$tried" -ge 5 ]
    count $? "$1 knows only $tried editions"
}

headers() {
    local c='c89 c99 c11 c17 c2x gnu89 gnu99 gnu11 gnu17 gnu2x'
    local plus_plus='c++98 c++11 c++14 c++17 c++20 c++23 gnu++98 gnu++17 gnu++23'
    editions cc c $c
    editions clang c $c
    editions g++ c++ $plus_plus
    editions clang++ c++ $plus_plus
}

install_and_link
folders
pages
uninstall
versions
unload
flags
packages
processor
headers
at_least 50
echo "face_install: $passed passed, $failed failed"
[ "$failed" -eq 0 ]
