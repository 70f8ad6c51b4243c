# Folders whose files are read in small pieces, and files that fail while they are read.
. tests/common.sh
preloaded streams
counted 'short reads' python3 -B tests/short_reads.py "$program" "$scratch/streams.so"
end
