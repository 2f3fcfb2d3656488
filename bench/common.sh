# shellcheck shell=bash
# What the benchmarks share. Sourced from the top of the repository.
out=target/bench
mkdir -p "$out"

# Stops where a command is missing, and names the Debian package that has it.
need() { # COMMAND:PACKAGE ..
    local missing=() pair
    for pair in "$@"; do
        command -v "${pair%:*}" >/dev/null || missing+=("${pair#*:}")
    done
    [ "${#missing[@]}" -gt 0 ] || return 0
    echo "$0: Debian packages are missing: ${missing[*]}" >&2
    echo "$0: apt-get update && apt-get install -y ${missing[*]}" >&2
    exit 2
}

# Has a static library proved and built, and puts the archive where the benchmarks link it.
archive() { # CRATE ARCHIVE
    (cd "crates/$1" && ../../tools/quiet rt lib)
    mkdir -p target/staticlib
    cp "crates/$1/out/lib$1.a" "target/staticlib/$2"
}

# Runs an x86-64 program, prints the instructions that it took, and leaves what it wrote in $out/said.
insns() { # PROGRAM [ARGS ..]
    if ! INSNS=1 tools/x86run "$@" >"$out/said" 2>"$out/count"; then
        cat "$out/count" >&2
        return 1
    fi
    sed -n 's/^insns //p' "$out/count"
}
