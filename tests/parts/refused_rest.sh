# Refused allocations of the other commands. Calls of which no run meets all refusals are asked by tests/unproved.py.
. tests/common.sh
. tests/refused.sh
refused 1 dump "$segments/sarama-txn-markers.log"
refused 1 chain "$segments/sarama-txn-markers.log"
refused 1 dump "$segments/kpy-gzip.log"
refused 1 dump --decode --headers tests/evidence/row-yes-2/__transaction_state-0/00000000000000000000.log
refused 1 dump --as outputs --headers tests/evidence/row-yes-2/out-0/00000000000000000000.log
refused 1 explain --code 5.10
refused 1 coordinator billing $'\x1b\n'
refused 1 check --help
refused 1 explain tests/stories/34-dup-across-transactions
refused 1 explain tests/stories/04-missing-marker
refused 1 explain tests/stories/39-headers-as-text
refused 1 explain tests/evidence/row-yes-2
refused 1 explain tests/stories/47-lost-commit
refused 1 explain tests/evidence/row-SplitGroup-1
for i in 1 2 3 4 5 6 7 8 9; do cat "$segments/sarama-idem-1.log"; done > "$scratch/long"
refused 101 dump "$scratch/long"
if [ $parts -gt 5 ]; then ok; else bad "no part of a long listing was written before memory ran out"; fi

# what is said of a refused manifest where memory is refused to its cause
counted 'messages without memory' python3 -B tests/messages.py "$program" "$scratch/refuse.so"
end
