#!/bin/sh
# run.sh SPEC SCRIPT [W H]: each command above its block, up to the first that was refused; status 1 there.
# The whole script is done all the same: what stands behind a refused command may have kept files.
# SCRIPT is read twice, so it must be a file. SSLED names the program where it is not `ssled`.
out=$(mktemp) || exit 1
trap 'rm -f "$out"' EXIT
"${SSLED:-ssled}" run "$@" > "$out"; status=$?
[ -f "$2" ] || { cat "$out"; exit "$status"; }
awk -v status="$status" '
  NR == FNR { sub(/\r$/, ""); if ($0 != "" && $0 !~ /^#/) { command[++n] = $0; at[n] = FNR } next }
  /^= / { if (said != "ok" && k > 0) exit
    said = $0; sub(/^[^|]* ev [0-9]+ /, "", said); print "> " command[++k] }
  { print }
  END { if (k > 0 && said != "ok") { print "stopped at line " at[k] " of the script: " said; exit 1 }
    exit status }' "$2" "$out"
