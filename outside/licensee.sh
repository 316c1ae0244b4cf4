#!/bin/sh
# Builds the example as a licensee does, by the compile lines of README, from the archive where it lies
# and from where make install puts it; only on x86-64, since there cc compiles for the archive.
#
# licensee.sh ARCHIVE FOLDER
set -eu
archive=$1 folder=$2
[ "$(uname -m)" = x86_64 ] || {
    echo "licensee.sh: cc here does not compile for x86-64, so the kit's own tools alone built the example"
    exit 0
}
rm -rf "$folder"
mkdir -p "$folder"
outside/install.sh "$archive" "$(cd "$folder" && pwd -P)/root" /opt/templetbark

tried() {
    "$folder/$1" >"$folder/$1.wrote"
    diff examples/plan_and_play.expected "$folder/$1.wrote"
    echo "licensee.sh: $1 prints what it must"
}

cc -std=c99 -Iinclude examples/plan_and_play.c "$archive" -o "$folder/by_path"
tried by_path
installed=$folder/root/opt/templetbark
cc -std=c99 -I"$installed/include" examples/plan_and_play.c -L"$installed/lib" -ltempletbark -o "$folder/installed"
tried installed
if command -v pkg-config >/dev/null; then
    export PKG_CONFIG_PATH="$installed/lib/pkgconfig" PKG_CONFIG_SYSROOT_DIR="$folder/root"
    # shellcheck disable=SC2046
    cc -std=c99 examples/plan_and_play.c $(pkg-config --cflags --libs templetbark) -o "$folder/by_pkg_config"
    tried by_pkg_config
fi
