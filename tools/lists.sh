#!/bin/sh
# lists.sh COMMAND ARGUMENT... [--program PATH] [--script PATH]
# Questions about what is recorded, asked of sessions in the flat form (tools/oracle/README.md).
#   span A LOWER UPPER  which slots a draw rebinds whose first instance is known only to lie from LOWER to UPPER (request 11 of document 02), in the
#                       state that the session of file A leaves (-: standard input), on the session's own board:
#                       `always M sometimes N`, or `refused N` (15: LOWER is above UPPER)
#   names A             the pipelines and draws of the lists that the session of file A records (-: standard input), with WebGPU's names in place of GL
#                       numbers (request 2): SetPrimitive, SetDepth, SetStencilFunc, SetStencilOps, SetColorTarget and the four draws, in the printed
#                       form, `---` between two lists; a number that has no name stays
#   compare A B         whether each draw of two lists fetches alike (request 3), blend constants by their bits (request 12; those of every NaN are
#                       7fc00000): the list that the session of file A records, on a board with vertex buffer layout, and that of file B, on one
#                       without: `equal`, `draw K` (the first draw that differs, from 0) or `refused N` (9: unequal numbers of draws). One of the two
#                       may be standard input (-). Each session makes one list, ended or not. Nothing tests how the lists were recorded: each
#                       session says its own board
#   trim A              the list that the session of file A records (-: standard input; it makes one list, ended or not) without each blend constant,
#                       viewport, scissor, vertex buffer, sampler, index buffer or depth bias setting that a later setting of the same thing supersedes
#                       (request 7), in the printed form; then `---` and three lines: how many settings went, by kind, and the commands and the settings of
#                       the seven kinds, before and after; or `refused N`
#   --program PATH      the program: crates/NAME/out/NAME if not given (rt run in crates/NAME), NAME span_masks or list_names; with compare and trim one that
#                       tools/boards/build.sh or tools/trim/build.sh made: if not given it is built, natively and unproved, into a temporary folder
#   --script PATH       with names, the program that records: crates/script/out/script if not given (rt run in crates/script)
# A holds one session, B too. Exit 2: wrong use, or no program. Exit 1: a number that is none, a file that cannot be read, not one session, with compare
# and trim not one list, or a wrong line, whose number in its file is named. Then nothing is printed but the message, on standard error.
set -eu
here=$(cd "$(dirname "$0")" && pwd -P)

fail() {
    echo "lists.sh: $1" >&2
    exit 1
}

usage() {
    echo "usage: lists.sh span A LOWER UPPER [--program PATH]" >&2
    echo "       lists.sh names A [--program PATH] [--script PATH]" >&2
    echo "       lists.sh compare A B [--program PATH]" >&2
    echo "       lists.sh trim A [--program PATH]" >&2
    exit 2
}

# The path of the program NAME of the project, $1: $2, or crates/NAME/out/NAME where that is empty.
find_program() {
    found=$2
    if [ -z "$found" ]; then
        found=$here/../crates/$1/out/$1
        [ -x "$found" ] || { echo "lists.sh: no crates/$1/out/$1: rt run in crates/$1 makes it" >&2; exit 2; }
    fi
    case $found in */*) ;; *) found=./$found ;; esac
    { [ -f "$found" ] && [ -x "$found" ]; } || { echo "lists.sh: no program $found" >&2; exit 2; }
}

check_u32() {
    case $2 in
        '' | *[!0-9]* | 0?* | ???????????*) ;;
        *) [ "$2" -gt 4294967295 ] || return 0 ;;
    esac
    fail "$1 is no decimal number from 0 to 4294967295 (no leading zeros): $2"
}

# How messages name file $1.
name_of() {
    if [ "$1" = - ]; then echo "standard input"; else echo "$1"; fi
}

# Copies file $1 to $2.
copy_session() {
    if [ "$1" = - ]; then cat >"$2"; else cat -- "$1" >"$2" 2>/dev/null; fi || fail "cannot read $(name_of "$1")"
    [ -s "$2" ] || fail "$(name_of "$1"): no session"
}

# The program's error line $1 about an input with $4 lines before those of file $2, whose copy is $3.
wrong_line() {
    rest=${1#error: line }
    line=$((${rest%%:*} - $4))
    [ "$line" -le "$(sed -n '$=' "$3")" ] || fail "$(name_of "$2"): the session goes on, but there is no line $line"
    fail "$(name_of "$2"): line $line: ${rest#*: }"
}

# A line of file $1 stands after its session: the first line's last number, in the copy $2, is the number of calls.
more_lines() {
    header=$(sed -n 1p "$2")
    fail "$(name_of "$1"): more than one session: line $((${header##* } + 2)) stands after the first"
}

span() {
    { [ $# -eq 3 ] && [ -z "$script" ]; } || usage
    find_program span_masks "$program"
    check_u32 LOWER "$2"
    check_u32 UPPER "$3"
    copy_session "$1" "$folder/session"
    { printf '%s %s\n' "$2" "$3" && cat "$folder/session"; } >"$folder/input"
    "$found" <"$folder/input" >"$folder/answer" || fail "$found failed"
    answer=$(sed -n 1p "$folder/answer")
    case $answer in
        'error: line '*) wrong_line "$answer" "$1" "$folder/session" 1 ;;
        'always '* | 'refused '*) ;;
        *) fail "$found gives no answer" ;;
    esac
    [ "$(sed -n '$=' "$folder/answer")" -eq 1 ] || more_lines "$1" "$folder/session"
    echo "$answer"
}

names() {
    [ $# -eq 1 ] || usage
    find_program list_names "$program"
    shows=$found
    find_program script "$script"
    copy_session "$1" "$folder/session"
    "$found" <"$folder/session" >"$folder/printed" || fail "$found failed"
    ended=$(sed -n '/^===$/{=;q;}' "$folder/printed")
    if [ -z "$ended" ]; then
        last=$(sed -n '$p' "$folder/printed")
        case $last in
            'error: line '*) wrong_line "$last" "$1" "$folder/session" 0 ;;
            *) fail "$found gives no answer" ;;
        esac
    fi
    [ "$(sed -n '$=' "$folder/printed")" -eq "$ended" ] || more_lines "$1" "$folder/session"
    "$shows" <"$folder/printed" >"$folder/answer" || fail "$shows failed"
    [ "$(sed -n '$p' "$folder/answer")" = === ] || fail "$shows gives no answer"
    sed '$d' "$folder/answer"
}

# The lines of the copy $1, the last one ended.
whole_lines() {
    cat "$1"
    [ -z "$(tail -c 1 "$1")" ] || echo
}

# No line of file $1, whose copy is $2, stands after its session.
one_session() {
    calls=$(sed -n '1s/^[0-9 ]* \([0-9]\{1,5\}\)$/\1/p' "$2")
    [ -z "$calls" ] || [ "$(sed -n '$=' "$2")" -le $((calls + 1)) ] || more_lines "$1" "$2"
}

# What the program answers, $1, about the files $2 and $3 with a line between them: a wrong line is told, first lines before lines too many.
check_pair() {
    between=$(($(sed -n '$=' "$folder/a") + 1))
    line=0
    case $1 in 'error: line '*) line=${1#error: line } && line=${line%%:*} ;; esac
    [ "$line" -ne 1 ] || wrong_line "$1" "$2" "$folder/a" 0
    one_session "$2" "$folder/a"
    [ "$line" -ne $((between + 1)) ] || wrong_line "$1" "$3" "$folder/b" "$between"
    one_session "$3" "$folder/b"
    [ "$line" -ne 0 ] || return 0
    [ "$line" -gt "$between" ] || wrong_line "$1" "$2" "$folder/a" 0
    wrong_line "$1" "$3" "$folder/b" "$between"
}

# The program of tools/$1: the one that is given, or it is built.
build_program() {
    if [ -z "$program" ]; then
        program=$folder/program
        "$here/$1/build.sh" "$program" || exit 2
    fi
    find_program "$1" "$program"
}

compare() {
    { [ $# -eq 2 ] && [ -z "$script" ]; } || usage
    { [ "$1" != - ] || [ "$2" != - ]; } || usage
    copy_session "$1" "$folder/a"
    copy_session "$2" "$folder/b"
    build_program boards
    { whole_lines "$folder/a" && echo and && whole_lines "$folder/b" && echo compare; } >"$folder/input"
    "$found" <"$folder/input" >"$folder/answer" || fail "$found failed"
    answer=$(cat "$folder/answer")
    check_pair "$answer" "$1" "$2"
    case $answer in
        equal | 'draw '* | 'refused '*) ;;
        *) fail "$found gives no answer" ;;
    esac
    echo "$answer"
}

trim() {
    { [ $# -eq 1 ] && [ -z "$script" ]; } || usage
    copy_session "$1" "$folder/session"
    build_program trim
    { whole_lines "$folder/session" && echo trim; } >"$folder/input"
    "$found" <"$folder/input" >"$folder/answer" || fail "$found failed"
    answer=$(sed -n 1p "$folder/answer")
    case $answer in 'error: line 1: '*) wrong_line "$answer" "$1" "$folder/session" 0 ;; esac
    one_session "$1" "$folder/session"
    case $answer in
        'error: line '*) wrong_line "$answer" "$1" "$folder/session" 0 ;;
        'left '*) sed 1d "$folder/answer" ;;
        'refused '*) echo "$answer" ;;
        *) fail "$found gives no answer" ;;
    esac
}

program=
script=
left=$#
while [ "$left" -gt 0 ]; do
    word=$1
    shift
    left=$((left - 1))
    case $word in
        --program | --script)
            { [ "$left" -gt 0 ] && [ -n "$1" ]; } || usage
            if [ "$word" = --program ]; then program=$1; else script=$1; fi
            shift
            left=$((left - 1))
            ;;
        --*) usage ;;
        *) set -- "$@" "$word" ;;
    esac
done
[ $# -gt 0 ] || usage
command=$1
shift
folder=$(mktemp -d)
trap 'rm -rf "$folder"' EXIT
trap 'exit 1' HUP INT TERM
case $command in
    span) span "$@" ;;
    names) names "$@" ;;
    compare) compare "$@" ;;
    trim) trim "$@" ;;
    *) usage ;;
esac
