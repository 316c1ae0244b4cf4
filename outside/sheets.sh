#!/bin/sh
# Runs a program on every sheet of a folder and asks for the plan beside it, byte for byte.
#
# sheets.sh FOLDER WROTE PROGRAM..: NAME.sheet goes in, NAME.plan must come out; it is kept in WROTE.
set -eu
folder=$1 wrote=$2
shift 2
tried=0 faults=0

fault() {
    echo "sheets.sh: $1" >&2
    faults=$((faults + 1))
}

rm -rf "$wrote"
mkdir -p "$wrote"
for file in "$folder"/*; do
    name=$(basename "$file")
    case $name in
    *.sheet) [ -f "${file%.sheet}.plan" ] || fault "$name has no plan beside it" ;;
    *.plan) [ -f "${file%.plan}.sheet" ] || fault "$name has no sheet beside it" ;;
    *) fault "$name is neither a sheet nor a plan" ;;
    esac
done
for sheet in "$folder"/*.sheet; do
    name=$(basename "$sheet" .sheet)
    [ -f "$folder/$name.plan" ] || continue
    tried=$((tried + 1))
    "$@" <"$sheet" >"$wrote/$name.plan" || fault "$name.sheet: the program ended with status $?"
    diff "$folder/$name.plan" "$wrote/$name.plan" >&2 || fault "$name.sheet: that is not its plan"
done
echo "sheets.sh: $tried sheets, $faults faults"
[ "$tried" -gt 0 ] && [ "$faults" -eq 0 ]
