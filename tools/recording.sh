# shellcheck shell=sh disable=SC2154
# Shared by the scripts that run a proved program on a recording: sourced after tools/build.sh, with $here the root of the repository.
# POSIX sh.

give_up() { say "$1"; exit 2; }

# Sets $file to the name of a file that can be read; no program takes it for an option.
use_recording() { # NAME
    case $1 in
    -*) file=./$1 ;;
    *) file=$1 ;;
    esac
    [ -e "$file" ] || give_up "there is no file $1"
    [ ! -d "$file" ] || give_up "$1 is a folder"
    [ -f "$file" ] || give_up "$1 is no file"
    [ -r "$file" ] || give_up "$1 can't be read"
}

# Runs the program on the file. What it says on standard error is a refusal.
play() { # PROGRAM [ARGUMENT ..]
    { refusal=$("$here/tools/program" "$@" <"$file" 2>&1 >&3); } 3>&1
    status=$?
    [ -z "$refusal" ] || { say "$refusal"; exit 1; }
    return "$status"
}
