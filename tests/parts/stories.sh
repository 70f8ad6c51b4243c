# The stories: folders with one mistake each, their verdicts and notes.
. tests/common.sh

while IFS=$'\t' read -r name want line; do
  echo "$line" > "$scratch/line"
  for workers in 1 4; do
    run check --workers $workers "tests/stories/$name"
    same "check of the story $name, $workers workers" "$want" "$scratch/line" "tests/stories/$name.notes"
  done
  run check --quiet "tests/stories/$name"
  same "check --quiet of the story $name" "$want" "$scratch/line" /dev/null
  run check --json "tests/stories/$name"
  if cmp -s "$scratch/err" "tests/stories/$name.notes"; then ok; else bad "the notes of $name beside JSON"; fi
done < tests/stories/expected.tsv

# each note by a folder that deserves it and by one that nearly does
passes 'notes' python3 -B tests/notes.py "$program"

# the tables of what an answer often is, in docs/EVIDENCE.md and docs/APPLICATION.md: each mistake in a good folder
counted 'the tables of answers' python3 -B tests/what_you_see.py "$program"

# the causes that pages name of real clusters: each in a folder, with its line and at its place on the page
counted 'what clusters do' python3 -B tests/cluster_causes.py "$program"

# the stories of faults: each place of theirs is looked up in the logs
counted 'stories of faults' python3 -B tests/explain.py "$program"

# the lines of stories: times, each once, their parts, and the path in the last one
counted 'the lines of stories' python3 -B tests/story_lines.py "$program"

# the cause that a story names, by what its rows show: a folder for each case, and for the near misses
counted 'the causes of stories' python3 -B tests/causes.py "$program"

# the catalogue of faults: a page for each kind, docs/FAULTS.md and the help
counted 'the catalogue of faults' python3 -B tests/fault_pages.py "$program"

# the manual pages and the completions are what the help says
counted 'manual pages and completions' python3 -B tools/pages.py "$program"
end
