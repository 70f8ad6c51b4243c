# Sourced by the parts that refuse allocations: the answer, or 'out of memory' after a front of it.
preloaded refuse

# slurp FILE: what is in it, as $text; fails where a byte 0 is
slurp() { ! IFS= read -r -d '' text < "$1"; }

# refused STEP WORDS: refuses every STEP-th allocation of the run, one each time; counts the runs that were told so, and
# those that had written a part by then. Nothing but the program is started for each, since there are thousands.
refused() {
  local LC_ALL=C step=$1 at good total wrong=0 text whole notes err
  shift
  "$program" "$@" > "$scratch/whole" 2> "$scratch/notes"
  good=$?
  slurp "$scratch/notes" || bad "$*: a byte 0 in a message"
  notes=$text
  slurp "$scratch/whole" || bad "$*: a byte 0"
  whole=$text
  told=0
  parts=0
  REFUSE_COUNT=$scratch/count LD_PRELOAD=$scratch/refuse.so "$program" "$@" > /dev/null 2>&1
  total=$(cat "$scratch/count")
  for ((at = 1; at <= total; at += step)); do
    REFUSE_AT=$at LD_PRELOAD=$scratch/refuse.so "$program" "$@" > "$scratch/out" 2> "$scratch/err"
    status=$?
    slurp "$scratch/err" || text="$text and a byte 0"
    err=$text
    slurp "$scratch/out" || text="$text and a byte 0"
    if [ $status = $good ] && [ "$err" = "$notes" ] && [ "$text" = "$whole" ]; then
      continue
    elif [ $status = 3 ] && [ "$err" = $'eoscheck: out of memory\n' ] && [ "$text" = "${whole:0:${#text}}" ]; then
      told=$((told + 1))
      if [ -n "$text" ]; then parts=$((parts + 1)); fi
    else
      wrong=$((wrong + 1))
      echo "$*, allocation $at: status $status, ${err:0:200}" | head -n 1
    fi
  done
  # a check writes its line whole or not at all
  if [ "$1" = check ]; then wrong=$((wrong + parts)); fi
  if [ $wrong = 0 ] && [ $told -gt 5 ]; then ok
  else bad "$*: $wrong of $total refused allocations change the answer, $told are told"; fi
}
