# Refused allocations of `check`.
. tests/common.sh
. tests/refused.sh
refused 1 check --workers 1 tests/evidence/row-yes-2
refused 1 check --workers 2 tests/evidence/row-yes-2
refused 11 check --workers 4 tests/simulated/seed-7
refused 1 check --json tests/evidence/row-Missing-3
refused 1 check --json --workers 1 tests/evidence/row-yes-2
refused 1 check tests/stories/44-lost-outputs-of-forgotten-source
refused 1 check tests/as-brokers-write/leader-epoch-falls
refused 1 check --all tests/stories/04-missing-marker
refused 1 check --all --workers 1 tests/evidence/row-Step-1
refused 1 check --all --workers 1 tests/evidence/random-AbsentPartition-1
refused 1 check --all --workers 1 tests/evidence/row-OffsetDeleted-1
refused 1 check --all --json --workers 1 tests/stories/09-misspelled-group
end
