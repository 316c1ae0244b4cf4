#!/bin/sh
# Compiles a Rust crate without std to an x86-64 object, on any machine.
#
# to_x86_64.sh LIB.rs OBJECT.o CLANG
#
# The library's archive is x86-64 code, and a machine of another kind has no Rust library for
# x86-64. So the crate goes through LLVM's text, before any optimisation, and the kit's own clang
# compiles it at -O3 as it compiles the library: what is measured beside the library differs in its
# code and not in its compiler. Panics become traps.
set -eu
crate=$1 object=$2 clang=$3
rustc --edition 2021 --crate-type lib --emit=llvm-ir -C opt-level=3 -C no-prepopulate-passes -C codegen-units=1 \
    -C panic=abort "$crate" -o "$object.rust.ll"
sed -E \
    -e '/^target datalayout/d' \
    -e 's/^target triple.*/target triple = "x86_64-unknown-linux-gnu"/' \
    -e 's/ "(target-cpu|target-features|probe-stack|frame-pointer)"="[^"]*"//g' \
    -e 's/^(attributes #[0-9]+ = \{) *\}/\1 nounwind }/' \
    -e 's/^declare (.*@_R.*) unnamed_addr #[0-9]+$/define internal \1 { call void @llvm.trap() unreachable }/' \
    "$object.rust.ll" >"$object.ll"
"$clang" --target=x86_64-unknown-linux-gnu -O3 -fPIC -Wno-override-module -c "$object.ll" -o "$object"
