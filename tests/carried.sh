#!/usr/bin/env bash
# Compares the program that the repository carries with the one that was proved and built here from the sources as they
# are: the same octets, if the toolchain is the same. Another toolchain makes other octets of the same sources: the
# carried program runs the stored runs then, by the pytest of $python. The last line is 'N passed, M failed'.
set -u
top=$(cd "$(dirname "$0")/.." && pwd)
. "$top/dist/built.sh"
passed=0
failed=0

# hold NAME COMMAND..: counts a case by whether the command holds
hold() {
  if "${@:2}"; then
    passed=$((passed + 1))
  else
    failed=$((failed + 1))
    echo "FAILED $1"
  fi
}

# toolchain PROGRAM: what the program was built by
toolchain() { sed -n 's/^toolchain //p' "$1.built" 2>/dev/null; }

now=$(sources)
hold 'the program is built from the sources as they are' is_built "$program" "$now"
hold 'dist/ carries a program of the sources as they are' is_built "$carried" "$now"
if [ "$(toolchain "$program")" = "$(toolchain "$carried")" ]; then
  hold 'both are the same, octet for octet' cmp "$program" "$carried"
else
  echo "the carried program was built by $(toolchain "$carried"), and the toolchain here is $(toolchain "$program")"
  hold 'the carried program runs the stored runs' \
    "${python:-python3}" -m pytest -q -p no:cacheprovider "--program=$carried" "$top/tests/cli/test_stored_runs.py"
fi
hold 'dist/ carries libraries of the sources as they are' are_built "$(sources rackd_library)"
if [ -f "$archive" ] && [ "$(library_toolchain)" = "$(rt version)" ]; then
  made=$(mktemp -d)
  trap 'rm -rf "$made"' EXIT
  hold 'the libraries are made of the archive that is built here' "$top/dist/library.sh" "$archive" "$made"
  hold 'the carried archive is the same, octet for octet' cmp "$made/librackd.a" "$libraries/librackd.a"
  hold 'the carried shared object is the same, octet for octet' cmp "$made/librackd.so" "$libraries/librackd.so"
fi
if [ "$failed" != 0 ]; then echo 'dist/refresh has the repository carry the program of these sources'; fi
echo "$passed passed, $failed failed"
[ "$failed" = 0 ]
