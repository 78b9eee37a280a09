#!/usr/bin/env bash
# Runs scripts/*.lisp by a program, each under a time limit, and compares what each one writes with
# its .out:
#
#     run_scripts.sh PROGRAM [quick [TOOL ..]]
#
# The head of a script has its options, as how many cells the heap has. With `quick` those that have
# a shorter run make it, and the words after that are a tool that runs the program, or options of
# the program's own. SCRIPTS in the environment are the names of some, TIMES has how long each one
# took shown. The last line has 'N passed, M failed'.
set -euo pipefail
here=$(dirname "$(readlink -f "${BASH_SOURCE[0]}")")
program=$1
how=${2:-whole}
shift $(($# < 2 ? $# : 2))
limit=${LIMIT:-300}
passed=0
failed=0
before=()
after=()
for word in "$@"; do
    if [[ ${#before[@]} -eq 0 && $word == --* ]]; then after+=("$word"); else before+=("$word"); fi
done

head_of() { sed -n "s/^; $1: //p" "$script"; }

for script in "$here"/scripts/*.lisp; do
    name=$(basename "$script" .lisp)
    if [[ -n ${SCRIPTS:-} && " $SCRIPTS " != *" $name "* ]]; then continue; fi
    read -ra options <<<"$(head_of options)"
    arguments=()
    if [[ $how == quick ]]; then read -ra arguments <<<"$(head_of quick)"; fi
    status=0
    begins=$(date +%s%N)
    said=$(timeout "$limit" "${before[@]}" "$program" "${after[@]}" "${options[@]}" "$script" \
        "${arguments[@]}" 2>&1) || status=$?
    took=$((($(date +%s%N) - begins) / 1000000))
    if [[ $status -le 1 && $said == "$(<"${script%.lisp}.out")" ]]; then
        passed=$((passed + 1))
        if [[ -n ${TIMES:-} ]]; then printf '%-20s %d ms\n' "$name" "$took"; fi
        continue
    fi
    failed=$((failed + 1))
    echo "$name: status $status after $took ms"
    diff <(echo "$said") "${script%.lisp}.out" | head -n 20 || true
done
echo "$passed passed, $failed failed"
[[ $failed -eq 0 && $passed -gt 0 ]]
