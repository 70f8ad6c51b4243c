# The manifests that `init` makes, its refusals, and its refused allocations; which partition a name has; reports, against their
# schema and against what is printed, which needs Python's jsonschema; pictures, against a second reading of the logs, and whether they show the
# cause; what runs leave that are killed; small stacks.
. tests/common.sh
preloaded refuse
preloaded streams
counted coordinators python3 -B tests/coordinator.py "$program"
counted manifests python3 -B tests/init.py "$program" "$scratch/refuse.so"
counted reports python3 -B tests/report.py "$program" "$scratch/refuse.so" "$scratch/streams.so"

# the page, beside the lines, the notes and the report of the same check
counted pages python3 -B tests/page.py "$program" "$scratch/refuse.so"
counted pictures python3 -B tests/draw.py "$program" "$scratch/refuse.so"
counted 'causes in pictures' python3 -B tests/pictures.py "$program"
preloaded killed
counted 'killed runs' python3 -B tests/killed.py "$program" "$scratch/killed.so"
counted 'small stacks' python3 -B tests/stacks.py "$program"
end
