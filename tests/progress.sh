# shellcheck shell=sh
# Read by the scripts that have rt prove something. `prove_with_progress NAME rt lib` and
# `prove_with_progress NAME rt run` run the command in the folder of the crate NAME, and say on
# standard error what the time usually is and each crate as rt finishes it. The status is the
# command's; where it fails, its last two lines are shown.
#
# HUP, INT and TERM end the command and all that it started; the status is then 128 and the signal's
# number. The traps of these three are prove_with_progress's own, and none are set after it: a
# script that has others sets them again.

# How many crates of crates.txt some crates need, themselves among them; other words count nothing.
crates_needed() { # WORD...
    awk -v words="$*" '
        { sub(/#.*/, ""); sub(/ staticlib/, ""); sub(/:/, " ") }
        NF { crate = $1; $1 = ""; below[crate] = $0 }
        END {
            count = split(words, todo)
            for (i = 1; i <= count; i++) {
                if (!(todo[i] in below) || todo[i] in seen) continue
                seen[todo[i]] = 1
                needed++
                more = split(below[todo[i]], names)
                for (j = 1; j <= more; j++) todo[++count] = names[j]
            }
            print needed + 0
        }' "${root:?}/crates.txt"
}

# Reads what rt says and tells of each crate; FILE keeps all of it.
tell_crates() { # NEEDED FILE
    finished=0 crate=
    while IFS= read -r line; do
        printf '%s\n' "$line" >&3
        case $line in
        'crate '*:*) crate=${line#crate } crate=${crate%%:*} ;;
        'logic=proved '*)
            finished=$((finished + 1))
            printf '%s proved, %d of %d, %d left\n' "$crate" "$finished" "$1" $(($1 - finished)) >&2
            ;;
        'logic='*) printf '%s NOT PROVED\n' "$crate" >&2 ;;
        esac
    done 3>"$2"
}

# Ends the job, which leads a group of processes of its own, with all that it started.
end_job() { # STATUS
    stopped=$1
    [ -n "$job" ] || return 0
    kill -s TERM -- "-$job" 2>/dev/null || kill -s TERM "$job" 2>/dev/null || :
}

# Waits until the job has ended, and after a signal until nothing of its group is left.
wait_for_job() {
    while :; do
        ended=0
        wait "$job" 2>/dev/null || ended=$?
        kill -s 0 "$job" 2>/dev/null || break
    done
    tries=0
    while [ "$stopped" -ne 0 ] && kill -s 0 -- "-$job" 2>/dev/null && [ "$tries" -lt 10 ]; do
        tries=$((tries + 1))
        [ "$tries" -lt 5 ] || kill -s KILL -- "-$job" 2>/dev/null || :
        sleep 1
    done
}

prove_with_progress() { # NAME COMMAND...
    needed=$(crates_needed "$1") crate_folder=$root/crates/$1
    shift
    progress=$(mktemp -d) && chmod 711 "$progress" && mkfifo "$progress/pipe" || return 2
    job='' stopped=0
    trap 'end_job 129' HUP
    trap 'end_job 130' INT
    trap 'end_job 143' TERM
    printf 'proving %d crates: %s\n' "$needed" \
        'usually 2 to 5 minutes from nothing; a run that is stopped goes on where it stopped' >&2
    tell_crates "$needed" "$progress/said" <"$progress/pipe" &
    teller=$!
    # what a stopped prover leaves in the temporary folder goes with this one
    (cd "$crate_folder" && TMPDIR=$progress exec setsid "$@") >"$progress/pipe" 2>&1 </dev/null &
    job=$!
    [ "$stopped" -eq 0 ] || end_job "$stopped"
    wait_for_job
    wait "$teller" || :
    trap - HUP INT TERM
    if [ "$stopped" -ne 0 ]; then
        ended=$stopped
        echo 'stopped; the same command goes on from here' >&2
    elif [ "$ended" -ne 0 ]; then
        tail -n 2 "$progress/said" >&2
    fi
    rm -rf "$progress"
    return "$ended"
}
