# A release, its archive and its package installed into empty roots, where the program runs.
. tests/common.sh
counted releases python3 -B tests/release.py "$program"
end
