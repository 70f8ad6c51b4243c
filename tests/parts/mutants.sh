# Damaged and made-up segments, against a plain reading of the format that shares nothing with the program.
. tests/common.sh
sees_all 'damaged and made-up segments' python3 -B tests/mutants.py "$program" "$segments" 600

# a worked evidence whose output's log is cut at every length and has each bit flipped, with 1 and 4 workers
counted 'damage' python3 -B tests/damage.py "$program"
end
