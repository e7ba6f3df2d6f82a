# SPDX-License-Identifier: MIT OR Apache-2.0
# shellcheck shell=sh
# Sourced, in the folder of the repository, by what compiles or links against the library. It has a folder $room of its own.
#   find_archive [ARCHIVE]    sets $archive: the one that was named, or crates/kat_c/out/libkat.a, or that of the release
#   find_compiler             sets $compiler, a C compiler that makes programs here (CC, cc, gcc or clang), or $kit, the folder
#                             of the Rattle kit, whose clang has no headers of the system
#   link_with OUTPUT SOURCE.. compiles and links a program in C
#   share_with OUTPUT         makes a shared object of the archive. It shows the calls of include/kat.h and no other name
# Those that find something set $why and end with 1 where there is none.

# For tests: says why there is nothing to test, and ends.
skip() {
    echo "$0: skipped, since $*"
    exit 0
}

find_archive() {
    archive=${1:-crates/kat_c/out/libkat.a}
    if [ $# -eq 0 ] && [ ! -f "$archive" ] && [ -f release/libkat-x86_64-linux.a.gz ]; then
        gzip -dc release/libkat-x86_64-linux.a.gz >"$room/libkat.a" || exit 1
        archive=$room/libkat.a
    fi
    if [ ! -f "$archive" ]; then
        [ $# -eq 0 ] || { echo "$0: FAILED: there is no archive $archive"; exit 1; }
        why="there is no archive of the library: release/archive builds it"
        return 1
    fi
    why="the library is for x86-64 Linux"
    [ "$(uname -s) $(uname -m)" = "Linux x86_64" ]
}

# Whether a compiler makes programs: some machines have one without the headers of the C library.
compiles() {
    command -v "$1" >/dev/null 2>&1 || return 1
    printf '#include <stdio.h>\n#include <stdlib.h>\nint main(void) { return 0; }\n' >"$room/tried.c"
    "$1" -o "$room/tried" "$room/tried.c" >/dev/null 2>&1
}

find_compiler() {
    compiler=
    kit=
    for word in "${CC:-}" cc gcc clang; do
        if [ -z "$compiler" ] && [ -n "$word" ] && compiles "$word"; then compiler=$word; fi
    done
    [ -z "$compiler" ] || return 0
    why="there is neither a C compiler nor the Rattle kit, which has one"
    command -v rt >/dev/null 2>&1 || return 1
    kit=$(rt doc) && kit=$(dirname "$kit")
    why="there is no C compiler, and the kit has none"
    [ -x "$kit/toolchain/bin/clang" ]
}

# The few declarations that the examples need of the C library, for the kit's clang.
headers() {
    mkdir -p "$room/headers"
    echo 'typedef __SIZE_TYPE__ size_t;
#define NULL ((void *)0)' >"$room/headers/stddef.h"
    echo 'typedef unsigned char uint8_t; typedef unsigned int uint32_t; typedef unsigned long uint64_t;' >"$room/headers/stdint.h"
    echo '#include <stddef.h>
typedef struct file FILE; extern FILE *stdout, *stderr; int printf(const char *, ...);
int snprintf(char *, size_t, const char *, ...); int fputs(const char *, FILE *);
size_t fwrite(const void *, size_t, size_t, FILE *);' >"$room/headers/stdio.h"
    echo '#include <stddef.h>
void *realloc(void *, size_t); void free(void *); void exit(int);' >"$room/headers/stdlib.h"
    echo '#include <stddef.h>
size_t strlen(const char *);' >"$room/headers/string.h"
}

link_with() {
    output=$1
    shift
    if [ -n "$compiler" ]; then
        "$compiler" -O1 -Iinclude -o "$output" "$@" "$archive"
    else
        headers
        "$kit/toolchain/bin/clang" --target=x86_64-unknown-linux-gnu -O1 -fPIE -nostdinc -I"$room/headers" -Iinclude \
            -c -o "$output.o" "$@" &&
            "$kit/bin/rattle-link" --target x86_64-unknown-linux-gnu --toolchain "$kit/toolchain" -o "$output" "$output.o" "$archive"
    fi
}

# The calls of the library, as a version script of the linker, which hides all other names.
visible_names() {
    echo "{ global:"
    sed -n 's/^uint[0-9]*_t \(kat_[a-z_]*\)(.*/\1;/p' include/kat.h
    echo "local: *; };"
}

share_with() {
    visible_names >"$room/visible" || return 1
    if [ -n "$compiler" ]; then
        "$compiler" -shared -Wl,-soname,libkat.so.0 -Wl,-Bsymbolic -Wl,-z,relro -Wl,-z,now "-Wl,--version-script,$room/visible" \
            -o "$1" -Wl,--whole-archive "$archive" -Wl,--no-whole-archive
    else
        "$kit/toolchain/bin/ld.lld" -m elf_x86_64 -shared -soname libkat.so.0 -Bsymbolic --eh-frame-hdr -z relro -z now \
            -z noexecstack --version-script "$room/visible" -o "$1" \
            --whole-archive "$archive" --no-whole-archive "$kit/toolchain/lib/libc.so.6"
    fi
}
