# Segments: their listings, their chains, and what their records say.
. tests/common.sh

# each segment: its listing and its chain, and the same from standard input
while read -r name; do
  if [ ! -f "$segments/$name.log" ] || [ ! -f "$segments/$name.dump" ] || [ ! -f "$segments/$name.chain" ]; then
    bad "$name: a file of the case is missing"
    continue
  fi
  case $(tail -n 1 "$segments/$name.dump") in end*) want=0 ;; *) want=1 ;; esac
  run dump "$segments/$name.log"
  same "dump $name" $want "$segments/$name.dump" /dev/null
  input=$segments/$name.log run dump -
  same "dump - of $name" $want "$segments/$name.dump" /dev/null
  case $(cat "$segments/$name.chain") in ok*) want=0 ;; *) want=1 ;; esac
  run chain "$segments/$name.log"
  same "chain $name" $want "$segments/$name.chain" /dev/null
  python3 tests/chain_of_listing.py "$segments/$name.dump" > "$scratch/chain"
  if cmp -s "$scratch/chain" "$segments/$name.chain"; then ok; else bad "$name.chain isn't what its listing says"; fi
done < "$segments/cases"
for file in "$segments"/*.log; do
  if grep -qx "$(basename "$file" .log)" "$segments/cases"; then ok; else bad "$(basename "$file") is in no case"; fi
done

# what records say, their headers and ranges of offsets, against a plain reading
counted 'decoded listings' python3 -B tests/decoded_dump.py "$program"

# each segment as a whole log, cut at the borders of its batches: the same answer
passes 'cut segments' python3 -B tests/cuts.py "$program" "$segments"

# the segments of many folders of evidence, which another encoder and client libraries wrote, against a plain reading
for folder in tests/evidence tests/real-evidence; do
  passes "segments of $folder" python3 -B tests/compare.py "$program" "$folder"
done

# a listing that is written in several parts
for i in 1 2 3 4 5 6 7 8 9; do cat "$segments/sarama-idem-1.log"; done > "$scratch/long"
python3 -B -c 'import sys; sys.path.insert(0, "tests"); import mutants
print("\n".join(mutants.read(open(sys.argv[1], "rb").read())))' "$scratch/long" > "$scratch/whole"
run dump "$scratch/long"
same 'dump of a long segment' 0 "$scratch/whole" /dev/null
end
