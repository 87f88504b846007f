# What the scripts of this folder in shell share: they count what passed and what failed, and end with both.
# shellcheck shell=sh
passed=0
failed=0
trap 'exit 130' HUP INT TERM # so that a signal, too, runs the trap of EXIT

# Counts what $2 names as passed if the status $1 is 0, else as failed.
count() {
    if [ "$1" = 0 ]; then
        passed=$((passed + 1))
    else
        failed=$((failed + 1))
        echo "failed: $2"
    fi
}

# Says how many passed, and ends.
end() {
    echo "$passed passed, $failed failed"
    [ "$failed" = 0 ] && [ "$passed" -gt 0 ]
    exit
}
