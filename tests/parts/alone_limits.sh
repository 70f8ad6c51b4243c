# Large and hostile segments, with a bound on memory or time, and how many threads are started.
. tests/common.sh
counted 'large and hostile segments' python3 -B tests/limits.py "$program"
preloaded threads
counted threads python3 -B tests/threads.py "$program" "$scratch/threads.so"
end
