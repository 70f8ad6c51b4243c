# The first answer of a fresh clone, before anything is proved: it has some two minutes.
. tests/common.sh
counted 'the first answer' python3 -B tests/first_answer.py
end
