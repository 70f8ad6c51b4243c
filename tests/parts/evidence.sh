# Folders of evidence: their verdicts, as a line and as JSON, and their notes.
. tests/common.sh

# each folder of evidence: its verdict as a line with 1 to 64 workers, and of each third as JSON
at=0
while IFS=$'\t' read -r name want line; do
  at=$((at + 1))
  : > "$scratch/line"
  : > "$scratch/message"
  : > "$scratch/json"
  if [ "$want" = 2 ]; then echo "$line" > "$scratch/message"
  else
    echo "$line" > "$scratch/line"
    # the notes, by a second program
    python3 -B tests/notes_reference.py "tests/evidence/$name" > "$scratch/message"
  fi
  if [ "$want" != 2 ]; then python3 -B tests/fault_fields.py "$line" > "$scratch/json"; fi
  for workers in 1 2 3 4 8 64; do
    run check --workers $workers "tests/evidence/$name"
    if [ "$want" = 2 ]; then only_first; fi
    same "check of $name, $workers workers" "$want" "$scratch/line" "$scratch/message"
    if [ $((at % 3)) = 0 ] && [ $((workers % 3)) = 1 ]; then
      run check --json --workers $workers "tests/evidence/$name"
      if [ "$want" = 2 ]; then only_first; fi
      same "check --json of $name, $workers workers" "$want" "$scratch/json" "$scratch/message"
    fi
  done
done < tests/evidence/expected.tsv

# folders whose data batches real client libraries wrote, and some as brokers leave them: each verdict, also by the second program
for top in tests/real-evidence tests/as-brokers-write; do
  while IFS=$'\t' read -r name want line; do
    echo "$line" > "$scratch/line"
    python3 -B tests/notes_reference.py "$top/$name" > "$scratch/message"
    for workers in 1 4; do
      run check --workers $workers "$top/$name"
      same "check of $name, $workers workers" "$want" "$scratch/line" "$scratch/message"
    done
    if python3 -B tests/reference.py "$top/$name" | cmp -s - "$scratch/line"; then ok
    else bad "the second program on $name"; fi
  done < $top/expected.tsv
  if [ "$(ls -d $top/*/ | wc -l)" = "$(wc -l < $top/expected.tsv)" ]; then ok
  else bad "a folder of $top has no verdict"; fi
done
end
