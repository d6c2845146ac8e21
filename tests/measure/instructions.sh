#!/usr/bin/env bash
# Counts the instructions of one event under callgrind (Debian's valgrind): those of a script of 5,000 lines of this kind, less
# those of one of 1,000, by 4,000. The line has one slave, at address 5. The last row is the count.
#
# usage: instructions.sh LINE [PROGRAM]
set -u
top=$(cd "$(dirname "$0")/../.." && pwd)
row=${1:?a line of a script}
program=${2:-$top/dist/x86_64-linux/rackd}
work=$(mktemp -d)
rack='[[line]]\nnumber = 1\ncapacity = 65536\nmasters = [1, 2]\n'
rack+='[[line.slave]]\naddress = 5\nident = 0x80A1\ncfg = "2111"\n'

# count LINES: the instructions of a script of this number of lines
count() {
  { printf "$rack%%%%\n"; yes "$row" | head -n "$1"; } >"$work/script"
  valgrind --tool=callgrind --callgrind-out-file="$work/events" "$program" <"$work/script" 2>&1 >/dev/null |
    sed -n 's/.*Collected : //p'
}

first=$(count 1000)
last=$(count 5000)
echo "functions: callgrind_annotate $work/events"
echo $(((last - first) / 4000))
