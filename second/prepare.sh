#!/usr/bin/env bash
# prepare.sh FOLDER: for each kind of cases FOLDER/KIND.cases, .answers and .counts, and beside that the second program's own tests.
# Prints the counts. Its last line is 'N passed, M failed'; a count that is too low, so also a count of zero, fails.
set -uo pipefail
mkdir -p "$1"
folder=$(realpath "$1")
cd "$(dirname "$0")"

source ../.ci/count.sh

make() { # make KIND SCRIPT [VERB-]: the cases of a kind, the answers to them and how many there are for each reason
    local files="$folder/$1"
    python3 "$2" "${3:-}cases" "$files.cases" \
        && python3 "$2" "${3:-}answers" "$files.cases" "$files.answers" "$files.counts"
    local status=$?
    [ -e "$files.counts" ] && sed "s/^/$1 /" "$files.counts"
    count "$1: the second program has its cases and answers, and enough of them for every cause and reason" "$status"
}

python3 -m unittest discover -p 'test_*.py' >"$folder/tests" 2>&1 &
tests=$!

make tables table_cases.py
make steps step_cases.py
make certificates certificate_cases.py
make witnesses witness_cases.py
make records record_cases.py
make searches search_cases.py
make rooms room_cases.py
make corpus corpus_cases.py
make reads text_cases.py read-
make writes text_cases.py write-
make lengths length_cases.py
make reports report_cases.py
make backs back_cases.py
make joins join_cases.py join-
make join-texts join_cases.py join-text-
make shown join_cases.py shown-
make trees tree_cases.py trees-
make tree-rooms tree_cases.py room-
make drafts draft_cases.py
make plans plan_cases.py

python3 carry.py "$folder"
count "carry: every byte table of the cases that passed the old limits is answered alike when it is carried over" $?

python3 corpus_cases.py check
count "corpus: every text reads, and states, verdict, size and trees are as its index says" $?

wait "$tests"
status=$?
cat "$folder/tests"
count "the second program's own tests" "$status"

counted
