# Sourced by the scripts beside it, which count their cases in `passed`, `failed` and `skipped`, and
# keep what the last command said in "$work/said".

passed=0 failed=0 skipped=0

check() { # NAME COMMAND..: passes where the command does
    local name=$1
    shift
    if "$@" > "$work/said" 2>&1; then
        passed=$((passed + 1))
    else
        failed=$((failed + 1))
        echo "FAILED: $name"
        head -n 10 "$work/said" | sed 's/^/  /'
    fi
}
skip() { # NAME: a case that can't be tried here
    skipped=$((skipped + 1))
    echo "skipped: $1"
}
finish() { # the last line, and the status
    if [[ $skipped -eq 0 ]]; then
        echo "$passed passed, $failed failed"
    else
        echo "$passed passed, $failed failed, $skipped skipped"
    fi
    [[ $failed -eq 0 ]]
    exit
}
