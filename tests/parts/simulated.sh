# What the simulator writes, and its histories.
. tests/common.sh
preloaded refuse

# a simulated folder, byte for byte, and its verdict by a second program
echo 'wrote partitions=6' > "$scratch/line"
run simulate --seed 7 --events 200 "$scratch/seed-7"
same 'simulate of seed 7' 0 "$scratch/line" /dev/null
if diff -r "$scratch/seed-7" tests/simulated/seed-7 > "$scratch/out" 2>&1; then ok
else bad "the folder of seed 7 isn't tests/simulated/seed-7"; head -5 "$scratch/out"; fi
python3 -B tests/reference.py tests/simulated/seed-7 > "$scratch/line" 2>&1
for workers in 1 4 64; do
  run check --workers $workers tests/simulated/seed-7
  same "check of the folder of seed 7, $workers workers" 0 "$scratch/line" /dev/null
done

# what `check` says of simulated folders with and without switches, and what can't be written
counted 'simulated folders' python3 -B tests/simulate.py "$program" "$scratch/refuse.so" 200

# their histories, and schedules that are run again
counted 'histories' python3 -B tests/histories.py "$program" "$scratch/refuse.so"

# histories that are made small
counted 'small histories' python3 -B tests/shrink.py "$program" "$scratch/refuse.so"

# what was done wrong, as the simulator says it, against what `check` finds
counted 'labels' python3 -B tests/labels.py "$program" "$scratch/refuse.so"

# folders that are drawn, and runs that stop
counted 'swarms' python3 -B tests/swarm.py "$program" "$scratch/refuse.so"

# all schedules of a few words
counted 'every schedule' python3 -B tests/every.py "$program" "$scratch/refuse.so"

# words for each kind of fault, and mistakes of who copies the logs
counted 'kinds' python3 -B tests/kinds.py "$program"
end
