#!/bin/sh
# Puts the archive, its header and its pkg-config file in place.
#
# install.sh ARCHIVE DESTDIR PREFIX
set -eu
archive=$1 prefix=$3
root=$2$3
version=$(sed -n 's/^#define TB_SURFACE //p' include/templetbark.h)
mkdir -p "$root/lib/pkgconfig" "$root/include"
cp "$archive" "$root/lib/libtempletbark.a"
cp include/templetbark.h "$root/include/templetbark.h"
cat >"$root/lib/pkgconfig/templetbark.pc" <<END
prefix=$prefix

Name: templetbark
Description: The task planner of the set-top box reference design, proved
Version: $version
Cflags: -I\${prefix}/include
Libs: -L\${prefix}/lib -ltempletbark
END
chmod 644 "$root/lib/libtempletbark.a" "$root/include/templetbark.h" "$root/lib/pkgconfig/templetbark.pc"
echo "install.sh: the archive, its header and its pkg-config file are below $root"
