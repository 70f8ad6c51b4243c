# The tables of cases, and what scripts ask of the libraries' calls, by an unproved build: also what is refused memory.
. tests/common.sh
counted 'tables of cases' python3 -B tests/unproved.py
end
