#!/bin/sh
# Proves a crate and what it stands on, and builds it, a program or a static library; says on standard error what it
# proves.
#
# prove.sh NAME TO: afterwards TO is what was built.
set -u
name=$1 to=$2
log=target/$name.log
if [ -f "crates/$name/src/main.rt" ]; then
    made=crates/$name/out/$name
    # The kit links a program where it runs it, so it runs here once, on nothing.
    build() { rt run </dev/null 2>&1 >/dev/null; }
else
    made=crates/$name/out/lib$name.a
    # For every x86-64 processor, as the header says: unlike a program an archive does not look at the one that it is on.
    build() { rt lib --cpu x86-64 2>&1; }
fi

{
    (cd "crates/$name" && build)
    echo "rt: ended $?"
} | {
    status=1
    : >"$log"
    while IFS= read -r line; do
        case $line in
        'rt: ended '*) status=${line#rt: ended } ;;
        *) printf '%s\n' "$line" >>"$log" ;;
        esac
        case $line in
        'rt: chose --jobs '*) echo "make: proving ${line##* }" >&2 ;;
        esac
    done
    exit "$status"
} || {
    cat "$log" >&2
    echo "make: $name is not proved" >&2
    exit 1
}
mkdir -p "$(dirname "$to")"
cmp -s "$made" "$to" || { cp "$made" "$to.new" && mv "$to.new" "$to"; }
