# For the script beside it: says and counts what was seen.
passed=0
failed=0

# seen WHAT WANTED GOT
seen() {
  if [ "$2" = "$3" ]; then
    echo "passed: $1"
    passed=$((passed + 1))
  else
    echo "failed: $1"
    apart "$2" "$3"
    failed=$((failed + 1))
  fi
}

# apart WANTED GOT: the lines that differ, up to 200 characters of each, and what stands where the first difference is
apart() {
  local place
  diff <(echo "$1") <(echo "$2") | head -n 10 | cut -c -200 || true
  place=$({ cmp <(echo "$1") <(echo "$2") 2>&1 || true; } | grep -oE '(byte|char) [0-9]+' | cut -d ' ' -f 2)
  [ "$place" -le 200 ] || printf '%s byte %d: %s\n' '<' "$place" "${1:place-1:80}" '>' "$place" "${2:place-1:80}"
}

# The last line, and whether nothing failed.
counted() {
  echo "$passed passed, $failed failed"
  [ "$failed" -eq 0 ]
}
