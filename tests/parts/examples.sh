# The applications of examples/, as far as their clients and compilers are there; what isn't is skipped by name.
. tests/common.sh
counted examples python3 -B tests/examples.py "$program"
end
