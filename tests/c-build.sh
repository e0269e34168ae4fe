# How programs in C over the proved calls are built: sourced by tests/face/run and tests/script, which set `here` to the root of the tree
# and `made` to the folder for what they build. The compiler, the linker and the C library are the kit's.
kit=$(dirname "$(dirname "$(readlink -f "$(command -v rt)")")")
archive=$here/target/staticlib/libface.a
mkdir -p "$made"

# Whether a file is older than any of these, or than any file in those of them that are folders.
older() { # FILE PATH..
    file=$1
    shift
    [ ! -e "$file" ] || [ -n "$(find "$@" -newer "$file" -print -quit)" ]
}

# Has the calls proved and the archive written, where that is not done yet or anything was changed since.
prove_archive() {
    # Standard input is the program's, not the prover's.
    "$here/archive" </dev/null >"$made/archive.log" 2>&1 || { cat "$made/archive.log" >&2; exit 1; }
}

# The kit has no C headers: tests/include stands in for the few declarations that are used.
compile() { # OBJECT SOURCE
    "$kit/toolchain/bin/clang" --target=x86_64-unknown-linux-gnu -std=c11 -O2 -fPIE -Wall -Wextra -Werror -pedantic \
        -nostdinc -isystem "$here/tests/include" -I "$here/include" -c "$2" -o "$1"
}

link() { # PROGRAM OBJECT..
    program=$1
    shift
    "$kit/bin/rattle-link" --target x86_64-unknown-linux-gnu --toolchain "$kit/toolchain" \
        -o "$program" "$@" "$archive" 2>"$made/link.log" || { cat "$made/link.log" >&2; exit 1; }
}
