#!/usr/bin/env bash
# Makes the libraries for C programs, librackd.a and librackd.so, from the archive that rt builds of the crate rackd_library.
#
#     dist/library.sh ARCHIVE FOLDER
#
# librackd.a has the object of the kit that takes memory by malloc beside those of ARCHIVE, so that a program links one file.
# librackd.so has the same code; only the functions of include/rackd.h can be seen from outside. It needs cc.
set -eu
if [ $# != 2 ]; then
  echo 'usage: dist/library.sh ARCHIVE FOLDER' >&2
  exit 2
fi
top=$(cd "$(dirname "${BASH_SOURCE[0]}")/.." && pwd)
kit=$(dirname "$(dirname "$(readlink -f "$(command -v rt)")")")
archive=$(readlink -f "$1")
mkdir -p "$2"
folder=$(cd "$2" && pwd)
parts=$(mktemp -d)
trap 'rm -rf "$parts"' EXIT

# the version of the header, whose first number is that of the soname
version=$(sed -n 's/^#define RACKD_VERSION "\(.*\)"$/\1/p' "$top/include/rackd.h")

cd "$parts"
ar x "$archive"
ar x "$kit/c/liblibc_c.a" heap.pic.o
rm -f "$folder/librackd.a"
# D: no times and no owners, so that the same objects make the same octets
ar rcsD "$folder/librackd.a" $(printf '%s\n' *.o | LC_ALL=C sort)

printf 'RACKD_%s {\n  global: rackd_*;\n  local: *;\n};\n' "${version%%.*}" >names
cc -shared -nostartfiles -o "$folder/librackd.so" -Wl,--whole-archive "$folder/librackd.a" -Wl,--no-whole-archive \
  -Wl,--version-script=names -Wl,-soname,"librackd.so.${version%%.*}" -Wl,--build-id=none -Wl,-z,relro,-z,now
