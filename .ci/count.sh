# Sourced by the scripts of tests: how many passed and failed, and a line for each. The last line of such a script is that of `counted`.
passed=0
failed=0

count() { # count NAME STATUS: one test more, with its result
    if [ "$2" -eq 0 ]; then
        passed=$((passed + 1))
        echo "ok: $1"
    else
        failed=$((failed + 1))
        echo "FAILED: $1"
    fi
}

counted() { # 'N passed, M failed', and status 0 only if nothing failed
    echo "$passed passed, $failed failed"
    [ "$failed" -eq 0 ]
}
