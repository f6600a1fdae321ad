# shellcheck shell=sh disable=SC2154
# Shared by the scripts that build something: sourced, with $here the root of the repository. POSIX sh.
# Messages go to standard error, since standard output belongs to the program that is built and run.

say() { printf '%s\n' "$*" >&2; }

need_rt() {
    command -v rt >/dev/null || { say "rt, the Rattle toolchain's command, is not on the path"; exit 1; }
}

# Shows how a log ends, without rt's lines on what it loaded, and gives up.
failed() { # WORDS LOG
    say "$1; the end of $2:"
    grep -v -e '^statements ' -e '^library ' -e '^logic /' -e '^only=' "$2" | tail -n 20 >&2
    exit 1
}

# One build at a time, as two would write the same files under target/. Without flock a build that was killed
# leaves its lock behind.
lock() {
    mkdir -p "$here/target/build" || exit 1
    if command -v flock >/dev/null; then
        exec 9>"$here/target/build/lock" || exit 1
        flock -n 9 || { say "waiting for another build (its log grows in $here/target/build)"; flock 9; }
        return
    fi
    if ! mkdir "$here/target/build/locked" 2>/dev/null; then
        say "waiting for another build (if there is none, remove $here/target/build/locked)"
        until mkdir "$here/target/build/locked" 2>/dev/null; do sleep 1; done
    fi
    trap 'rmdir "$here/target/build/locked"' EXIT
    trap 'exit 1' HUP INT TERM
}

# To be called before an exec too, which would keep the file open and run no trap.
unlock() {
    if command -v flock >/dev/null; then
        exec 9>&-
    else
        rmdir "$here/target/build/locked"
        trap - EXIT HUP INT TERM
    fi
}
