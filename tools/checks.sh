# shellcheck shell=bash disable=SC2034
# Shared by the tests that try the root's scripts as a user gives them: sourced in the root of the repository, by bash. Commands are
# tried in $folder/work, which goes away at the end; $root is the repository. In it are "a folder", the files of examples/, "example",
# which is the example of requests 3 and 11, a demount, and "unsound", a file that is refused: its event has no kind of event.
folder=$(mktemp -d) || exit 1
trap 'rm -rf -- "$folder"' EXIT
root=$PWD out=$folder/out err=$folder/err tried=0 wrong=0
mkdir "$folder/work" "$folder/work/a folder" || exit 1
cp examples/*.rec "$folder/work/" || exit 1
printf '\0\1\0\10\0\20\0\20\5\0\0\0\0\0\0\0' >"$folder/work/example"
printf '\0\1\0\10\0\20\0\20\14\0\0\0\0\0\0\0' >"$folder/work/unsound"

# The calls of a recording's text, a line each.
calls() { grep -v -e '^#' -e '^[[:space:]]*$' "$1"; } # TEXT

# Runs a command in the folder; its status, standard output and standard error are kept, and the milliseconds that it took.
try() {
    local begun
    begun=$(date +%s%N)
    (cd "$folder/work" && "$@") >"$out" 2>"$err" <"${input:-/dev/null}"
    status=$?
    took=$((($(date +%s%N) - begun) / 1000000))
}

# Holds a condition, which is a command, against what was tried last.
holds() { # WORDS COMMAND [ARGUMENT ..]
    tried=$((tried + 1))
    "${@:2}" && return
    wrong=$((wrong + 1))
    echo "WRONG: $1 (status $status)"
    head -c 300 "$out" | cat -v | head -n 5
    head -n 5 "$err"
}

says() { grep -q -- "$1" "$err"; }
prints() { cmp -s "$out" -; }
silent() { [ ! -s "$out" ]; }
quiet() { [ ! -s "$err" ]; }
ends() { [ "$status" -eq "$1" ]; }

done_quietly() { # WORDS
    holds "$1 ends with status 0" ends 0
    holds "$1 says nothing" quiet
}

refused() { # WORDS STATUS PATTERN
    holds "$1 ends with status $2" ends "$2"
    holds "$1 prints nothing" silent
    holds "$1 says $3" says "$3"
}

# Files that no script takes as a recording, where the command takes a file's name last.
refuses_files() { # WORDS COMMAND [ARGUMENT ..]
    try "${@:2}" none
    refused "$1 of no file" 2 'there is no file none'
    try "${@:2}" 'a folder'
    refused "$1 of a folder" 2 'a folder is a folder'
    try "${@:2}" /dev/null
    refused "$1 of a device" 2 'is no file'
    if [ "$(id -u)" -ne 0 ]; then
        : >"$folder/work/closed"
        chmod 0 "$folder/work/closed"
        try "${@:2}" closed
        refused "$1 of a file that can't be read" 2 "can't be read"
        rm -f "$folder/work/closed"
    fi
}

# Tells what was found; the last command of a test.
conclude() { # NAME
    [ "$wrong" -eq 0 ] || { echo "$wrong of $tried checks are wrong"; exit 1; }
    echo "$1: $tried checks, all as expected"
}
