# Sourced by tests/programs, tests/builds and tests/arguments: calls of programs, and what is expected of each.

calls=0 wrong=0

# call STATUS PRINTED SAID COMMAND: runs a line of shell, and compares its exit status, the first line of what it
# prints and the last line of what it says on standard error (patterns; '' is nothing). Both are left in files.
call() {
    local status=0 printed said
    calls=$((calls + 1))
    (eval "$4") >printed 2>said || status=$?
    printed=$(head -n 1 printed)
    said=$(tail -n 1 said)
    # shellcheck disable=SC2053
    [ $status = "$1" ] && [[ $printed == $2 && $said == $3 ]] && return
    wrong=$((wrong + 1))
    echo "$4"
    echo "  status $status, expected $1; printed '$printed', expected '$2'; said '$said', expected '$3'"
}

# expect WORDS COMMAND...: whether the command holds of the call before; the words say what doesn't where it fails.
expect() {
    local words=$1
    shift
    calls=$((calls + 1))
    "$@" && return
    wrong=$((wrong + 1))
    echo "$words"
}

# Ends a test: the tally, and failure where a call went wrong.
end_calls() {
    echo "$calls calls, $wrong wrong"
    [ $wrong = 0 ]
}
