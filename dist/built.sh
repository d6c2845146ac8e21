# shellcheck shell=bash
# What tells whether a program is built from the sources as they are. It is read by ./rackd, ./test, dist/refresh and the
# scripts of tests/, which set top to the folder of the repository before. Beside a program PROGRAM the file PROGRAM.built
# says what it was built from; rackd.built in dist has the rows of the libraries beside those of the program.

# the program that the repository carries, and the one that is built here
carried=$top/dist/x86_64-linux/rackd
program=$top/crates/rackd/out/rackd

# the libraries that the repository carries, and the archive that rt builds of their crate
libraries=$top/dist/x86_64-linux
archive=$top/crates/rackd_library/out/librackd_library.a

# linked CRATE: the lines of crates.txt of the crates that a crate is linked from, in the order of their names
linked() (
  declare -A line seen
  while IFS=: read -r name below; do line[${name% staticlib}]=$below; done <"$top/crates.txt"
  left=("$1")
  while [ ${#left[@]} -gt 0 ]; do
    name=${left[-1]}
    unset 'left[-1]'
    if [ "${line[$name]+listed}" ] && [ ! "${seen[$name]:-}" ]; then
      seen[$name]=yes
      read -ra below <<<"${line[$name]}"
      left+=("${below[@]}")
    fi
  done
  for folder in "$top"/crates/*/; do
    name=${folder%/}
    name=${name##*/}
    if [ "${seen[$name]:-}" ]; then echo "$name:${line[$name]}"; fi
  done
)

# sources [CRATE]: the sum of the names and the texts of all that the program, or a crate, is built from
sources() (
  shopt -s globstar nullglob
  LC_ALL=C
  cd "$top" || exit
  lines=$(linked "${1:-rackd}")
  files=()
  while IFS=: read -r name _; do
    for file in crates/"$name"/{src,specs,proofs}/**/*.{rt,antt}; do files+=("$file"); done
  done <<<"$lines"
  { echo "$lines"; sha256sum "${files[@]}"; } | hexadecimal
)

# hexadecimal: the sum of what is read
hexadecimal() {
  local line
  line=$(sha256sum)
  echo "${line%% *}"
}

# sum FILE: the sum of a file
sum() { hexadecimal <"$1"; }

# is_built PROGRAM SOURCES: whether the program is there, as it was when it was built from sources of this sum
is_built() {
  local built from
  [ -x "$1" ] && [ -f "$1.built" ] || return 1
  { read -r built && read -r from; } <"$1.built"
  [ "$from" = "sources $2" ] && [ "$built" = "program $(sum "$1")" ]
}

# toolchain_of PROGRAM: the kit by which the program was built, as far as that is known
toolchain_of() {
  local name value
  [ -x "$1" ] && [ -f "$1.built" ] || return 0
  while read -r name value; do
    if [ "$name" = toolchain ]; then echo "$value"; fi
  done <"$1.built"
}

# rows FILE KIND: the rows of a file that are about the program, or about the libraries
rows() {
  local name value kind
  [ -f "$1" ] || return 0
  while read -r name value; do
    case $name in
      archive | shared | library-*) kind=libraries ;;
      *) kind=program ;;
    esac
    if [ "$kind" = "$2" ]; then echo "$name $value"; fi
  done <"$1"
}

# write_rows FILE: writes the rows that are read to a file, all at once
write_rows() {
  local text
  text=$(while IFS= read -r row; do echo "$row"; done)
  echo "$text" >"$1.$$" && mv -f "$1.$$" "$1"
}

# mark PROGRAM SOURCES: notes that the program was built from sources of this sum, by which toolchain
mark() {
  {
    printf 'program %s\nsources %s\ntoolchain %s\n' "$(sum "$1")" "$2" "$(rt version)"
    rows "$1.built" libraries
  } | write_rows "$1.built"
}

# are_built SOURCES: whether the carried libraries are there, as they were when they were built from sources of this sum
are_built() {
  local name value archive='' shared='' from=''
  [ -f "$libraries/librackd.a" ] && [ -f "$libraries/librackd.so" ] && [ -f "$carried.built" ] || return 1
  while read -r name value; do
    case $name in
      archive) archive=$value ;;
      shared) shared=$value ;;
      library-sources) from=$value ;;
    esac
  done <"$carried.built"
  [ "$from" = "$1" ] && [ "$archive" = "$(sum "$libraries/librackd.a")" ] && [ "$shared" = "$(sum "$libraries/librackd.so")" ]
}

# library_toolchain: the kit by which the carried libraries were built, as far as that is known
library_toolchain() {
  local name value
  [ -f "$carried.built" ] || return 0
  while read -r name value; do
    if [ "$name" = library-toolchain ]; then echo "$value"; fi
  done <"$carried.built"
}

# mark_libraries SOURCES: notes that the carried libraries were built from sources of this sum, by which toolchain
mark_libraries() {
  {
    rows "$carried.built" program
    printf 'archive %s\nshared %s\nlibrary-sources %s\nlibrary-toolchain %s\n' "$(sum "$libraries/librackd.a")" \
      "$(sum "$libraries/librackd.so")" "$1" "$(rt version)"
  } | write_rows "$carried.built"
}

# have_program: sets program to one that is built from these sources, for tests; rt builds it where there is none
have_program() {
  local now
  "$top/rackd" --version >/dev/null 2>&1
  now=$(sources)
  if ! is_built "$program" "$now"; then program=$carried; fi
}

# built_program: writes the path of a program that is built from the sources as they are, if there is one; builds nothing
built_program() {
  local now file
  now=$(sources)
  for file in "$program" "$carried"; do
    if is_built "$file" "$now"; then
      echo "$file"
      return
    fi
  done
  return 1
}
