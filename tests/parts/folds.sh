# Fold files: what `fold` writes, and what `check` says over folds, against a second encoder and the logs; and the commands of
# docs/SCALE.md, as far as GNU parallel and Dask are there.
. tests/common.sh
preloaded refuse
preloaded streams
counted 'folds' python3 -B tests/folds.py "$program" "$scratch/refuse.so" "$scratch/streams.so"
end
