# The texts of the repository agree with each other. No program is needed.
. tests/common.sh

# each must-fail edit that stands outside the gate can be applied (tools/edits tries them)
passes 'edits that cannot be applied' tools/edits --read
# the page on what yes says names definitions and faults that there are
passes 'docs/YES.md' python3 -B tests/yes_page.py
# the contracts that carry its promises are there, and the program comes to them
passes 'what carries each promise' python3 -B tests/promises.py
passes 'what Good reaches' python3 -B tests/good_reaches.py
# what no public contract reaches stands in specs/steps
passes 'definitions that no public contract reaches' python3 -B tests/specs_steps.py
# place, fold, run and part mean one thing each
passes 'four words, each with one meaning' python3 -B tests/words.py
# crates in their order, in the map, and functions of few parameters
passes 'the shape of the crates' python3 -B tests/shape.py
# a line and a README for each crate, and no document that names one which is gone
passes 'what is said of each crate' python3 -B tests/rooms.py
# each public call that can answer want of memory, by a row of a table, a test or a run
passes 'tests/allocating.txt' python3 -B tests/allocating.py
end
