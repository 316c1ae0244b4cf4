#!/bin/sh
# Holds the archive's symbols to the header: it defines what the header declares and no more, and
# needs from outside what the header says and no more.
#
# archive.sh ARCHIVE HEADER
set -eu
archive=$1 header=$2
faults=0

in_order() { sort -u | tr '\n' ' '; }

same() { # WHAT HEADER'S ARCHIVE'S
    if [ "$2" = "$3" ]; then
        echo "archive.sh: $1: $2"
    else
        echo "archive.sh: $1: the header says $2, the archive has $3" >&2
        faults=$((faults + 1))
    fi
}

declared=$(sed -n 's/^tb_answer \(tb_[a-z]*\)(.*/\1/p' "$header" | in_order)
called=$(sed -n 's/.*two functions of the C library, \(.*\) and \(.*\), and nothing else.*/\1 \2/p' "$header" |
    tr ' ' '\n' | in_order)
same 'defined for others' "$declared" "$(nm -g --defined-only "$archive" | awk 'NF == 3 { print $3 }' | in_order)"
same 'needed from outside' "$called" "$(nm -u "$archive" | awk '$1 == "U" { print $2 }' | in_order)"
[ "$faults" -eq 0 ]
