# Folders that can't be read, bad words, and streams that can't be read or written.
. tests/common.sh

# what is said of a refusal, its cause in a second line; several folders; progress
counted messages python3 -B tests/messages.py "$program"

# flags for scripts
counted 'flags for scripts' python3 -B tests/for_scripts.py "$program"

# folders at their limits
counted 'folders at their limits' python3 -B tests/folders.py "$program"

# worked segments, and standard streams that fail, fill up or are interrupted
preloaded streams
counted 'streams that falter' python3 -B tests/streams.py "$program" "$scratch/streams.so"

# folders that can't be read
# unread PATH CAUSE: what is said where it can't be read
unread() { printf 'eoscheck: cannot read %s\n  %s\n' "$1" "$2" > "$scratch/message"; }
unread "$scratch/absent/evidence.json" 'no such file'
run check "$scratch/absent"
same 'check of an absent folder' 2 "$scratch/nothing" "$scratch/message"
cp -r tests/evidence/row-yes-2 "$scratch/folder"
chmod -R u+w "$scratch/folder"
rm -r "$scratch/folder/in-0"
: > "$scratch/folder/in-0"
unread "$scratch/folder/in-0" 'not a folder'
run check "$scratch/folder"
same "check of a folder with a file in a partition's place" 2 "$scratch/nothing" "$scratch/message"
mkdir "$scratch/folder/__consumer_offsets-0/00000000000000000001.log"
unread "$scratch/folder/__consumer_offsets-0/00000000000000000001.log" 'a folder'
run check "$scratch/folder"
same "check of a folder with a folder in a segment's place, before the file" 2 "$scratch/nothing" "$scratch/message"
echo 'eoscheck: cannot write -' > "$scratch/message"
"$program" check tests/evidence/row-yes-2 > /dev/full 2> "$scratch/err"
status=$?
: > "$scratch/out"
same 'check to a full device' 2 "$scratch/nothing" "$scratch/message"

# the words
echo 'end bytes=0' > "$scratch/empty"
run
same 'no words, no input' 0 "$scratch/empty" /dev/null
echo 'ok batches=0 producers=0' > "$scratch/empty_chain"
run chain -
same 'chain of no bytes' 0 "$scratch/empty_chain" /dev/null
: > "$scratch/nothing"
unread "$scratch/absent" 'no such file'
run dump "$scratch/absent"
same 'dump of an absent file' 2 "$scratch/nothing" "$scratch/message"
run chain "$scratch/absent"
same 'chain of an absent file' 2 "$scratch/nothing" "$scratch/message"
unread "$scratch" 'a folder'
run dump "$scratch"
same 'dump of a folder' 2 "$scratch/nothing" "$scratch/message"
for words in 'dump' 'dump a b' 'check' 'check --workers 0 x' 'check --workers 65 x' 'check --workers x x' 'check --quiet' 'check --progress' 'check --strict' 'check --expect inputs=1' 'check --expect inputs x' 'check --force x' 'dump --strict x' 'explain --expect inputs=1 x' 'dump --quiet x' 'fold' 'fold x' 'fold --manifest x' 'fold --verify x' 'fold --verify x --manifest y z' 'fold --verify x --out y z' 'simulate x' 'simulate --seed 7 --events 1000001 x' 'shrink x y' 'shrink --fault 1.5 x' '--no-such-word' 'dump --no-such-word x'; do
  # shellcheck disable=SC2086
  run $words
  if [ "$status" = 2 ] && [ ! -s "$scratch/out" ] && [ -s "$scratch/err" ]; then ok; else bad "bad words: $words"; fi
done
# an empty word is no folder: it would be read as /
for folder in . ''; do
  # shellcheck disable=SC2086
  run check $folder ''
  if [ "$status" = 2 ] && [ ! -s "$scratch/out" ] && [ -s "$scratch/err" ] && ! grep -q 'cannot read' "$scratch/err"; then ok
  else bad "bad words: check $folder and an empty one"; fi
done
echo 'error: a word of the command line is not UTF-8 text' > "$scratch/message"
run $'\xff'
same 'a word that is no text' 2 "$scratch/nothing" "$scratch/message"
run dump $'caf\xe9.log'
same 'a file whose name is no text' 2 "$scratch/nothing" "$scratch/message"
for words in '--help' 'check --help' 'dump --help' 'chain --help' 'explain --help' 'draw --help' 'init --help' 'coordinator --help' 'fold --help' 'simulate --help' 'shrink --help' '--version'; do
  # shellcheck disable=SC2086
  run $words
  if [ "$status" = 0 ] && [ -s "$scratch/out" ] && [ ! -s "$scratch/err" ]; then ok; else bad "help: $words"; fi
done

# output that can't be written: never a hang, never a crash
echo 'eoscheck: cannot write -' > "$scratch/message"
"$program" dump "$segments/rdkafka-txn-1.log" > /dev/full 2> "$scratch/err"
status=$?
: > "$scratch/out"
same 'dump to a full device' 2 "$scratch/nothing" "$scratch/message"
"$program" chain "$segments/rdkafka-txn-1.log" > /dev/full 2> "$scratch/err"
status=$?
same 'chain to a full device' 2 "$scratch/nothing" "$scratch/message"
for words in '--help' 'check --help' 'dump --help' 'chain --help' 'explain --help' 'draw --help' 'init --help' 'coordinator --help' 'fold --help' 'simulate --help' 'shrink --help' '--version'; do
  # shellcheck disable=SC2086
  "$program" $words > /dev/full 2> "$scratch/err"
  status=$?
  same "$words to a full device" 2 "$scratch/nothing" "$scratch/message"
done
for words in '--no-such-word' "dump $scratch/absent"; do
  # shellcheck disable=SC2086
  "$program" $words > "$scratch/out" 2> /dev/full
  status=$?
  : > "$scratch/err"
  same "$words with a full standard error" 2 "$scratch/nothing" "$scratch/nothing"
done
: > "$scratch/out"
mkfifo "$scratch/pipe"
(exec 3< "$scratch/pipe"; exec 3<&-) &
timeout 20 bash -c '
  exec 4> "$1/pipe"
  sleep 0.3
  for i in 1 2 3 4 5 6 7 8 9; do cat "$2/sarama-idem-1.log"; done > "$1/long"
  "$3" dump "$1/long" >&4 2> "$1/err"' _ "$scratch" "$segments" "$program"
status=$?
same 'dump to a closed pipe' 2 "$scratch/nothing" "$scratch/message"
end
