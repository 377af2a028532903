# here.sh: where the built programs are, for the checks that are shell scripts. `. scripts/here.sh` at the top of the checkout; here.py has the same.

# The status of a check that found no program, and so tried nothing.
readonly NOTHING_TRIED=77

# The path of a program: the one that the environment names, as RMALOCK or RMALOCK_STEPS, or else the built one, or the one built without proofs where
# RMALOCK_UNPROVED is 1. It builds nothing: where there is none, that is said, with the status of nothing tried.
built() {
  local other=${1^^} found
  other=${!other-}
  if [ -n "$other" ]; then
    # (its path is the caller's, who stood elsewhere before)
    found=$(cd "${OLDPWD:-.}" && realpath -ms "$other")
  else
    found=$(scripts/run-program --built "$1")
  fi
  if [ -z "$found" ] || [ ! -x "$found" ]; then
    echo "${0##*/}: ${other:-$1} isn't built, nothing tried" >&2
    return "$NOTHING_TRIED"
  fi
  printf '%s\n' "$found"
}
