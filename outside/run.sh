#!/bin/sh
# Prints what a program answers to a sheet, and nothing else, on standard output.
#
# run.sh SHEET PROGRAM..: the status is 0 for a plan, 3 for a refusal and 4 where no answer came out.
# The program itself always ends with 0, so what it printed decides.
set -u
sheet=$1
shift

no_answer() {
    echo "run.sh: $1" >&2
    exit 4
}

# The dot behind it keeps the answer's last line feed.
said=$("$@" <"$sheet" && echo .) || no_answer "the program did not end as it should"
said=${said%.}
[ -n "$said" ] || no_answer "the program printed nothing"
printf %s "$said" 2>/dev/null || no_answer "standard output cannot be written"
case $said in
'plan '*) ;;
'refused '*) exit 3 ;;
*) no_answer "that is neither a plan nor a refusal" ;;
esac
