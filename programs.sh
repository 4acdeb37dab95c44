# What the scripts beside it share; they source it.

# Runs the program of this crate with the words after it, in the folder where it is called. It is built first where it isn't there or a
# source is newer; a build that fails ends with 70 and runs nothing, and a build that isn't needed says nothing.
run_program() {
  local here crate program sources log
  here=$(dirname "$(readlink -f "${BASH_SOURCE[0]}")")
  crate=$1
  shift
  program="$here/crates/$crate/out/$crate"
  sources=("$here/crates.txt" "$here"/crates/*/src "$here"/crates/*/specs "$here"/crates/*/proofs)
  if [ ! -x "$program" ] || [ -n "$(find "${sources[@]}" -newer "$program" -print -quit 2>/dev/null)" ]; then
    echo "lux: building the planner, which proves it: a quarter of an hour the first time, later as long as what changed takes" >&2
    rm -f "$program"
    log=$(mktemp)
    # rt builds a program by running it; with no words it writes its usage line
    (cd "$here/crates/$crate" && rt run >"$log" 2>&1)
    if [ ! -x "$program" ]; then
      cat "$log" >&2
      rm -f "$log"
      echo "lux: the build failed" >&2
      exit 70
    fi
    rm -f "$log"
  fi
  exec "$program" "$@"
}
