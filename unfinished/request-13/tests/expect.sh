# shellcheck shell=sh
# Read by the scripts that test a command: counts in `passed` and `failed` what comes of each test, and tells of those that fail.
# $room is the script's folder for temporary files.
passed=0 failed=0

# Runs a command, and holds its exit status, the whole of its standard output, and a part of its
# standard error (none where the part is empty) against what is expected.
expect() { # WHAT STATUS OUTPUT PART COMMAND...
    what=$1 status=$2 output=$3 part=$4
    shift 4
    "$@" >"$room/out" 2>"$room/err" </dev/null
    ended=$?
    said=$(cat "$room/err")
    fault=''
    [ "$ended" -eq "$status" ] || fault="$fault exit status $ended and not $status;"
    [ "$(cat "$room/out")" = "$output" ] || fault="$fault other output;"
    case $said in *"$part"*) ;; *) fault="$fault standard error without '$part';" ;; esac
    [ -n "$part" ] || [ -z "$said" ] || fault="$fault standard error is not empty;"
    result "$what" "$fault"
}

result() { # WHAT FAULT
    if [ -z "$2" ]; then passed=$((passed + 1)); else
        failed=$((failed + 1))
        printf 'FAILED %s:%s\n' "$1" "$2"
        { tail -n 5 "$room/out" && tail -n 5 "$room/err"; } | cut -c 1-200 | sed 's/^/    /'
    fi
}

# Holds what a command says of the last run.
holds() { # WHAT COMMAND...
    what=$1 fault=''
    shift
    "$@" || fault=' it is not so;'
    result "$what" "$fault"
}
