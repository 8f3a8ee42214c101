#!/usr/bin/env bash
# Verifies the small settings of the models, and that each mutant is found. A line for each, and a last one that counts them. Needs
# Debian's spin, and gcc; one processor, for five minutes, and 2 GB. With --large SECONDS it explores each of the large settings for
# that long, as far as it comes: with a bit for each state, so that a few states in a thousand may be missed.
set -uo pipefail
here=$(cd "$(dirname "$0")" && pwd)
made=$(mktemp -d)
trap 'rm -rf "$made"' EXIT
passed=0 failed=0 limit='' bits=22

# Explores a setting with a verifier made for it. Prints its errors and states; nothing if it was not explored to its end.
explore() {
  local file=$1 level=$2 depth=$3
  shift 3
  rm -rf "$made/setting" && mkdir "$made/setting" && cd "$made/setting" || return
  spin "$@" -a "$here/$file.pml" > log 2>&1 &&
    gcc -w $level -DSAFETY -DNOCLAIM -DMEMLIM=1900 -o pan pan.c >> log 2>&1 || { cat log >&2; return; }
  nice $limit ./pan -m"$depth" -w"$bits" > log 2>&1
  grep -q 'too small\|out of memory\|MEMLIM bound' log && return
  echo "$(sed -n 's/.*errors: //p' log) $(awk '/states, stored/ { print $1 }' log)"
}

# tell MODEL NAME WANTED-ERRORS ERRORS STATES
tell() {
  local verdict=ok
  [ "$4" = "$3" ] || verdict=FAILED
  if [ $verdict = ok ]; then passed=$((passed + 1)); else failed=$((failed + 1)); fi
  printf '%-6s %-7s%-34s%11s states, %s errors\n' $verdict "$1" "$2" "${5:-?}" "${4:-?}"
}

# holds MODEL NAME OPTIONS: nobody waits beside a free tag.
holds() {
  local model=$1 name=$2 errors states
  shift 2
  read -r errors states < <(explore "$model" "-O2 -DCOLLAPSE" 2000000 "$@")
  tell "$model" "$name" 0 "$errors" "$states"
}

# finds MODEL NUMBER NAME OPTIONS: the mutant of this number is found.
finds() {
  local model=$1 number=$2 name=$3 errors states
  shift 3
  read -r errors states < <(explore "$model" "${level:--O0} -DCOLLAPSE" 2000000 -DMUTANT="$number" "$@")
  tell "$model" "$number $name" 1 "$errors" "$states"
}

F=-DFOREVER WHOLE="-DFOREVER -DWHOLE_GET"
TOLD="-DTHREADS=3 -DTAGS=2 -DONCE -DTIMED=1"

small() {
  holds duties three -DTHREADS=3 -DTAGS=2
  holds duties timed $TOLD
  holds duties longest $TOLD -DLONGEST
  holds groups groups -DTHREADS=2 -DGROUPS=2 $F -DTURNS=2
  holds groups grant_gap -DTHREADS=3 $WHOLE
  holds groups hidden -DTHREADS=2 -DPLACES=2 $F -DTURNS=1
  holds groups hider -DTHREADS=2 -DPLACES=2 -DHIDERS=1 $WHOLE
  holds groups two_groups -DTHREADS=2 -DGROUPS=2 -DPLACES=2 -DHIDERS=1 $WHOLE
  holds groups batch -DTHREADS=3 -DPLACES=2 -DBATCH=2 -DROUNDS=1 $WHOLE
  holds groups batch_gap -DTHREADS=2 -DPLACES=2 -DBATCH=2 $F -DTURNS=1
}

mutants() {
  level=-O2 finds duties 91 sees_to_no_other_tag $TOLD -DLONGEST
  finds duties 92 gives_up_and_sees_to_nothing $TOLD
  finds duties 93 waits_where_nobody_looks $TOLD
  finds duties 94 fails_to_tell_one_and_is_done $TOLD
  local two="-DTHREADS=2 -DGROUPS=2 -DPLACES=2 -DHIDERS=1 $WHOLE"
  finds groups 31 looks_before_the_spill $two
  finds groups 32 won_nothing_and_does_not_look $two
  finds groups 33 does_not_look_after_a_sweep $two
  level=-O2 finds groups 34 looks_for_one_whatever_is_left $two
  finds groups 81 late_key $two
  finds groups 82 does_not_try_again $two
  finds groups 83 looks_before_the_put -DTHREADS=2 $WHOLE
  finds groups 84 sleeps_without_a_look -DTHREADS=2 $WHOLE
  finds groups 85 nudges_one_group $two
  level=-O2 finds groups 86 shares_nudges_out $two
  level=-O2 finds groups 87 has_a_tag_and_passes_nothing_on -DTHREADS=3 -DGROUPS=2 -DPLACES=2 -DROUNDS=2 $WHOLE
}

# roams MODEL NAME OPTIONS: explores a large setting for a while.
roams() {
  local model=$1 name=$2 errors states
  shift 2
  read -r errors states < <(explore "$model" "-O2 -DBITSTATE" 10000000 "$@")
  [ "${states:-0}" != 0 ] || errors=
  tell "$model" "$name" 0 "$errors" "$states"
}

# How far they came is in README.md.
large() {
  limit="timeout -s INT $1" bits=33
  roams groups three -DTHREADS=3 -DGROUPS=2 -DPLACES=2 $F
  roams groups four -DTHREADS=4 -DGROUPS=2 -DPLACES=2 -DHIDERS=1 -DROUNDS=1 $WHOLE
  roams groups batch -DTHREADS=3 -DPLACES=3 -DBATCH=2 -DHIDERS=1 $WHOLE
}

for tool in spin gcc; do
  command -v "$tool" > /dev/null || { echo "check.sh: there is no $tool here: install the Debian package $tool"; exit 1; }
done
case ${1:-} in
  '') small; mutants ;;
  --large) large "${2:-600}" ;;
  *) echo 'usage: check.sh [--large [SECONDS]]'; exit 2 ;;
esac
echo "$passed passed, $failed failed"
[ "$failed" = 0 ]
