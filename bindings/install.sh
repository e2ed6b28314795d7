#!/bin/sh
# install.sh FOLDER PREFIX: the libraries of FOLDER, the headers and picky.pc for pkg-config, below PREFIX.
# Where FOLDER has no liblibc_c.a it is that of the kit, whose rt is on the path.
set -e
here=$(dirname "$0") folder=$1 prefix=$2
of_kit=$folder/liblibc_c.a
[ -f "$of_kit" ] || of_kit=$(dirname "$(readlink -f "$(command -v rt)")")/../c/liblibc_c.a
mkdir -p "$prefix/include" "$prefix/lib/pkgconfig"
cp "$here/c/picky.h" "$here/cpp/picky.hpp" "$prefix/include"
cp "$folder/libpicky_door.a" "$of_kit" "$prefix/lib"
sed -e "s|@PREFIX@|$(cd "$prefix" && pwd)|" -e 's|@VERSION@|0.1.0|' "$here/c/picky.pc.in" > "$prefix/lib/pkgconfig/picky.pc"
