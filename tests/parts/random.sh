# Folders with a few changes and in other segments, and made-up ones, against a second program from the definitions.
. tests/common.sh
sees_all 'changed folders of evidence' python3 -B tests/random_evidence.py "$program" 300

# all faults of an evidence, against the lists of the second program
counted 'all faults' python3 -B tests/all_faults.py "$program"
end
