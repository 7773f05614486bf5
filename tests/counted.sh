# Counts the tests of a script in shell, which reads this file by `source`. `$passed` and `$failed` are how many did.
passed=0
failed=0

# holds NAME WORDS..: a test is passed where the command ends with status 0.
holds() {
    if "${@:2}"; then
        passed=$((passed + 1))
    else
        failed=$((failed + 1))
        echo "FAILED: $1"
    fi
}

# finish NAME: prints the last line of the script of this name, and ends it with status 0 where nothing failed.
finish() {
    echo "$1: $passed passed, $failed failed"
    [ "$failed" -eq 0 ]
    exit
}
