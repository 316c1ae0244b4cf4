#!/bin/sh
# Tries make run as README describes it: what it prints, its status, and the ways in which it can go
# wrong.
#
# commands.sh FOLDER: the program is built; FOLDER keeps what was printed.
set -u
folder=$1 faults=0 tried=0
here=$(pwd -P)
sheets=$here/examples/sheets
rm -rf "$folder"
mkdir -p "$folder"

fault() {
    echo "commands.sh: $1" >&2
    faults=$((faults + 1))
}

# make run on a sheet, from another folder, as its own make.
run() { (cd / && MAKEFLAGS='' MAKELEVEL='' make -s -C "$here" run SHEET="$1") 2>"$folder/said"; }

# asks WHAT STATUS OF-ITS-RECIPE PLAN SHEET: that is printed, and make names this status.
asks() {
    tried=$((tried + 1))
    run "$4" >"$folder/wrote"
    ended=$?
    if [ "$2" -eq 0 ]; then
        [ "$ended" -eq 0 ] || fault "$1: make ended with $ended"
    elif [ "$ended" -eq 0 ] || ! grep -q "Error $2\$" "$folder/said"; then
        fault "$1: make did not name the status $2"
    fi
    diff "$3" "$folder/wrote" >&2 || fault "$1: that is not what must be printed"
}

asks 'a plan' 0 "$sheets/two_tasks.plan" examples/sheets/two_tasks.sheet
asks 'a refusal' 3 "$sheets/tick_line_alone.plan" "$sheets/tick_line_alone.sheet"
asks 'a folder' 4 /dev/null examples
asks 'no such sheet' 4 /dev/null examples/none.sheet
asks 'no sheet named' 4 /dev/null ''

odd="$here/$folder/a \"sheet\" of \$HOME's \$(touch odd) \`touch odd\`; \\ #.sheet"
cp "$sheets/two_tasks.sheet" "$odd"
asks 'a path of odd characters' 0 "$sheets/two_tasks.plan" "$odd"
[ ! -e odd ] || fault 'a path was taken for a command'

tried=$((tried + 1))
if run examples/sheets/two_tasks.sheet >/dev/full || ! grep -q 'Error 4$' "$folder/said"; then
    fault 'a full standard output was not seen'
fi
tried=$((tried + 1))
if run examples/sheets/two_tasks.sheet >&-; then
    fault 'a closed standard output was not seen'
fi

built='target/bin/planner crates/planner/out/planner'
for file in $built; do : >"$file"; done
asks 'an exchanged program' 0 "$sheets/two_tasks.plan" examples/sheets/two_tasks.sheet
# shellcheck disable=SC2086
rm $built
asks 'a deleted program' 0 "$sheets/two_tasks.plan" examples/sheets/two_tasks.sheet

echo "commands.sh: $tried tried, $faults faults"
[ "$faults" -eq 0 ]
