# For the scripts in this folder: runs words, and prints the time, that of a processor, and the memory that they took.

# timed WHAT WORD..: what was printed is in the file `out`
timed() {
  local what=$1
  shift
  if ! /usr/bin/time -o cost -f '%e s, of a processor %U and %S s, %M KiB' "$@" >out 2>err; then
    echo "$what failed: $(cat err)"
    exit 1
  fi
  printf '%-24s %s\n' "$what" "$(cat cost)"
}
