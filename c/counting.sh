# What the scripts of the C test share: a count of tests, and its last line. Sourced; $room is a scratch
# folder of the script.

passed=0
failed=0

# verdict STATUS NAME [COMPLAINT]
verdict() {
    if [ "$1" -eq 0 ]; then
        passed=$((passed + 1))
        echo "ok      $2"
    else
        failed=$((failed + 1))
        echo "FAILED  $2"
        if [ -n "${3:-}" ]; then cat "$3"; fi
    fi
}

# holds NAME COMMAND..: the command's status is 0.
holds() {
    counted_name=$1
    shift
    counted_status=0
    "$@" >"$room/said" 2>&1 || counted_status=$?
    verdict "$counted_status" "$counted_name" "$room/said"
}

# fails NAME COMMAND..: it is not.
fails() {
    counted_name=$1
    shift
    counted_status=0
    "$@" >"$room/said" 2>&1 || counted_status=1
    verdict $((1 - counted_status)) "$counted_name" "$room/said"
}

total() {
    echo "$passed passed, $failed failed"
    [ "$failed" -eq 0 ]
}
