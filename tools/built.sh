# Sourced by the scripts at the root: `built NAME` builds a program if it isn't built yet, and sets $program to it.
built() {
    program=$root/crates/$1/out/$1
    [ -x "$program" ] && return 0
    command -v rt >/dev/null 2>&1 || { echo "$1: building needs Rattle's command rt, which isn't on the PATH" >&2; exit 1; }
    echo "$1: building (every function is proved first; this takes some minutes, once) ..." >&2
    mkdir -p "$root/target"
    # `rt run` proves and builds the program, and runs it with the words behind `--`.
    if ! (cd "$root/crates/$1" && rt run -- --help >"$root/target/build.log" 2>&1 </dev/null); then
        echo "$1: the build failed; see target/build.log" >&2
        exit 1
    fi
    echo "$1: built" >&2
}
