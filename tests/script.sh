#!/bin/sh
# Tests of ./rigtemple. A copy of it runs in a temporary folder with stand-ins for rt, uname, the
# emulator and the programs. The stand-ins for the program and for the reader print what they are
# given but for its first line: a "card" here is the mark and the lines of its run, a "text" a line
# and a "card". The one for the program for names keeps what it is given. Where crates.txt lists the
# programs, each file of cards/ is run with the proved ones too, and its last line and its words
# held against cards/README.md; and so are texts with a slip.
# The last line is 'N passed, M failed'.
set -u
[ $# -eq 0 ] || { echo 'usage: script.sh' >&2; exit 2; }
top=$(CDPATH='' cd -- "$(dirname -- "$0")/.." && pwd)
room=$(mktemp -d) || exit 2
trap 'chmod -R u+rwx "$room"; rm -rf "$room"' EXIT
chmod 755 "$room"
passed=0 failed=0

# ---- what a test says

# Runs a command, and holds its exit status, the whole of its standard output, and a part of its
# standard error (none where the part is empty) against what is expected.
expect() { # WHAT STATUS OUTPUT PART COMMAND...
    what=$1 status=$2 output=$3 part=$4
    shift 4
    "$@" >"$room/out" 2>"$room/err" </dev/null
    ended=$?
    said=$(cat "$room/err")
    fault=''
    [ "$ended" -eq "$status" ] || fault="$fault exit status $ended and not $status;"
    [ "$(cat "$room/out")" = "$output" ] || fault="$fault other output;"
    case $said in *"$part"*) ;; *) fault="$fault standard error without '$part';" ;; esac
    [ -n "$part" ] || [ -z "$said" ] || fault="$fault standard error is not empty;"
    result "$what" "$fault"
}

result() { # WHAT FAULT
    if [ -z "$2" ]; then passed=$((passed + 1)); else
        failed=$((failed + 1))
        printf 'FAILED %s:%s\n' "$1" "$2"
        { tail -n 5 "$room/out" && tail -n 5 "$room/err"; } | cut -c 1-200 | sed 's/^/    /'
    fi
}

# Holds what a command says of the last run.
holds() { # WHAT COMMAND...
    what=$1 fault=''
    shift
    "$@" || fault=' it is not so;'
    result "$what" "$fault"
}

# ---- the stand-ins

# The programs: the reader says a byte that could stand at a slip's place, too, and the printer
# prints a "text" that reads as the "card".
programs() {
    mkdir "$room/programs"
    printf '#!/bin/sh\nsed 1d\n' >"$room/programs/rigtemple"
    printf '#!/bin/sh\nsed 1d\necho " 105" >&2\n' >"$room/programs/read_text"
    printf '#!/bin/sh\necho atoms\ncat\n' >"$room/programs/print_text"
    # shellcheck disable=SC2016
    printf '#!/bin/sh\ncat >"$0.given"\nprintf "0 weave\\n12  a  name\\n"\n' \
        >"$room/programs/move_names"
    chmod +x "$room/programs/"*
}

stand_ins() {
    emulator=$room/kit/on/aarch64/toolchain/bin/qemu-x86_64
    for name in rigtemple read_text print_text move_names; do
        mkdir -p "$room/house/crates/$name/src"
    done
    mkdir -p "$room/house/tests" "$room/house/cards" "$room/bin" "$(dirname "$emulator")"
    cp "$top/rigtemple" "$room/house/rigtemple"
    cp "$top/tests/progress.sh" "$room/house/tests/progress.sh"
    cp "$top/cards/explain.py" "$room/house/cards/explain.py"
    printf '%s: paper\n' rigtemple read_text print_text move_names >"$room/house/crates.txt"
    echo 'paper:' >>"$room/house/crates.txt"
    programs
    # "rt run" links the program of the crate's folder; it fails or takes long if it is told to, and
    # names the process that takes long; "rt doc" prints a path in the kit
    cat >"$room/bin/rt" <<END
#!/bin/sh
case "\$1" in
doc) echo "$room/kit/START-HERE.md" ;;
run)
    echo "crate paper: modules loaded=1 checked=0"
    echo "logic=proved functions=1"
    [ -z "\${RT_FAILS-}" ] || { echo "rt was here"; exit 1; }
    [ -z "\${RT_WAITS-}" ] || { sleep 30 & echo \$! >"$room/sleeper"; wait; }
    mkdir -p out
    name=\${PWD##*/}
    echo "crate \$name: modules loaded=1 checked=0"
    echo "logic=proved functions=1"
    cp "$room/programs/\$name" out ;;
*) exit 2 ;;
esac
END
    # shellcheck disable=SC2016
    printf '#!/bin/sh\necho "${MACHINE-x86_64}"\n' >"$room/bin/uname"
    # the emulator prints its words before the program's lines
    printf '#!/bin/sh\necho "emulated: $*"\nsed 1d\n' >"$emulator"
    chmod +x "$room/bin/rt" "$room/bin/uname" "$emulator"
}

guide() { PATH="$room/bin:/usr/bin:/bin" "$room/house/rigtemple" "$@"; }

# ---- the tests

good='card 255 bounded
1 select 0 1 5
rest 1'

card() { printf '3A\n%s\n' "$1"; } # LINES
text() { printf 'atoms\n%s\n' "$1"; } # LINES

arguments_and_files() {
    expect 'no argument' 2 '' 'usage: ./rigtemple [card | text] FILE, or ./rigtemple names' guide
    expect 'two files' 2 '' 'usage: ./rigtemple' guide "$room/good.card" "$room/good.card"
    expect 'a word and two files' 2 '' 'usage: ./rigtemple' \
        guide text "$room/good.card" "$room/good.card"
    expect 'an option that is not there' 2 '' './rigtemple -h helps' guide --helm
    expect 'an unknown word' 2 '' 'there is no file weave (./rigtemple -h helps)' guide weave
    helps -h
    helps --help
    expect 'a missing file' 2 '' "there is no file $room/none.card" guide "$room/none.card"
    expect 'a file whose name is empty' 2 '' 'there is no file' guide ''
    expect 'a folder' 2 '' "$room/house is a folder" guide "$room/house"
    expect 'a good card' 0 "$good" '' guide "$room/good.card"
    cp "$room/good.card" "$room/a card.card"
    expect 'a name with a space' 0 "$good" '' guide "$room/a card.card"
    cp "$room/good.card" "$room/-n"
    expect 'a name that begins with -, beside the caller' 0 "$good" '' in_folder "$room" -n
    unreadable
}

in_folder() { (cd "$1" && guide "$2"); }

# The help stands on standard output, and says what an act's number is.
helps() { # WORD
    guide "$1" >"$room/out" 2>"$room/err"
    holds "$1 ends well" test $? -eq 0
    holds "$1 says how to call it" grep -q '^usage: ./rigtemple FILE' "$room/out"
    holds "$1 says what act 1 is" grep -q 'by specification 1 (not by action 1)' "$room/out"
    holds "$1 complains of nothing" test ! -s "$room/err"
}

# Root may read everything, so there the script runs as nobody.
unreadable() {
    : >"$room/closed.card"
    chmod 000 "$room/closed.card"
    as=''
    [ "$(id -u)" -ne 0 ] || as='setpriv --reuid=65534 --regid=65534 --clear-groups'
    if [ -n "$as" ] && ! $as true 2>/dev/null; then
        echo 'NOT TRIED a file that may not be read: root cannot run a command as nobody here'
        return
    fi
    # shellcheck disable=SC2086
    expect 'a file that may not be read' 2 '' "$room/closed.card may not be read" \
        env PATH="$room/bin:/usr/bin:/bin" $as "$room/house/rigtemple" "$room/closed.card"
}

refusals() {
    n=0
    for word in short mark count offsets weight node rule 'action byte' atom; do
        n=$((n + 1))
        card "refused $n" >"$room/refused.card"
        expect "refused $n" 1 "refused $n" "$room/refused.card is refused: $word: " \
            guide "$room/refused.card"
    done
    expect 'where to read about it' 1 'refused 9' 'docs/API.md' guide "$room/refused.card"
    holds 'one line about a refusal' test "$(wc -l <"$room/err")" -eq 1
}

building() {
    rm -r "$room/house/target"
    expect 'the program is missing' 0 "$good" 'usually' guide "$room/good.card"
    holds 'it says how many crates' grep -q '^proving 2 crates' "$room/err"
    holds 'it says that it goes on' grep -q 'goes on where it stopped' "$room/err"
    holds 'a crate as it is proved' grep -q '^paper proved, 1 of 2, 1 left$' "$room/err"
    holds 'the last crate' grep -q '^rigtemple proved, 2 of 2, 0 left$' "$room/err"
    expect 'the program is there' 0 "$good" '' guide "$room/good.card"
    touch -t 200001010000 "$room/house/target/bin/rigtemple"
    expect 'the program is older than crates/' 0 "$good" '(rt run in crates/rigtemple)' \
        guide "$room/good.card"
    expect 'the program has been proved again' 0 "$good" '' guide "$room/good.card"
    rm -r "$room/house/target"
    expect 'the program is not proved' 2 '' 'rt was here' \
        env RT_FAILS=1 PATH="$room/bin:/usr/bin:/bin" "$room/house/rigtemple" "$room/good.card"
    expect 'the missing card comes first' 2 '' 'there is no file' guide "$room/none.card"
    holds 'nothing is proved for a missing card' test ! -e "$room/house/target"
}

# INT goes to the script's whole group, as Ctrl-C sends it. A shell leaves INT ignored in what it
# starts behind itself, so env gives it back.
stopping() {
    rm -rf "$room/house/target"
    if ! env --default-signal=INT true 2>/dev/null; then
        echo 'NOT TRIED Ctrl-C: env has no --default-signal here'
        return
    fi
    env --default-signal=INT RT_WAITS=1 PATH="$room/bin:/usr/bin:/bin" \
        setsid "$room/house/rigtemple" "$room/good.card" >"$room/out" 2>"$room/err" </dev/null &
    script=$!
    tries=0
    while [ ! -s "$room/sleeper" ] && [ "$tries" -lt 100 ]; do
        tries=$((tries + 1))
        sleep 0.1
    done
    holds 'the proof has begun' test -s "$room/sleeper"
    began=$(date +%s)
    kill -s INT -- "-$script"
    ended=0
    wait "$script" || ended=$?
    holds 'Ctrl-C ends the script' test "$ended" -eq 2
    holds 'it does not wait for the job' test $(($(date +%s) - began)) -lt 20
    holds 'it says so' grep -q '^stopped' "$room/err"
    holds 'no job is left behind' no_process "$(cat "$room/sleeper")"
    holds 'nothing of its group is left' no_process "-$script"
    holds 'no card was run' test ! -s "$room/out"
    expect 'it goes on' 0 "$good" 'rigtemple proved' guide "$room/good.card"
}

no_process() { ! kill -s 0 -- "$1" 2>/dev/null; } # PROCESS

# In these two the script looks for rt in a folder of the test's in place of /usr/local/bin.
finding_rt() {
    rm -rf "$room/house/target"
    mkdir "$room/local" "$room/plain"
    for tool in sh dirname mktemp head tail find cat sed touch rm mkdir cp \
        awk chmod mkfifo setsid sleep cmp wc tr; do
        ln -s "$(command -v $tool)" "$room/plain/$tool"
    done
    cp "$room/bin/uname" "$room/plain/uname"
    sed "s|/usr/local/bin|$room/local|" "$top/rigtemple" >"$room/house/rigtemple"
    expect 'rt is not found' 2 '' 'install the Rattle kit' \
        env PATH="$room/plain" "$room/house/rigtemple" "$room/good.card"
    mv "$room/bin/rt" "$room/local/rt"
    expect 'rt is found in /usr/local/bin' 0 "$good" 'rigtemple proved' \
        env PATH="$room/plain" "$room/house/rigtemple" "$room/good.card"
    mv "$room/local/rt" "$room/bin/rt"
    cp "$top/rigtemple" "$room/house/rigtemple"
}

running() {
    lib=$room/kit/toolchain/lib
    house_program=$room/house/target/bin/rigtemple
    expect 'on Arm' 0 "emulated: $lib/ld-linux-x86-64.so.2 --library-path $lib $house_program
$good" '' \
        env MACHINE=aarch64 PATH="$room/bin:/usr/bin:/bin" "$room/house/rigtemple" "$room/good.card"
    card "$(head -c 40000 /dev/zero | tr '\0' x)" >"$room/long.card"
    expect 'of a longer file the first 32,353 bytes' 0 \
        "$(head -c 32353 "$room/long.card" | sed 1d)" '' guide "$room/long.card"
    printf '#!/bin/sh\necho "goals open: atom 2" >&2\nsed 1d\n' >"$house_program"
    expect 'what is left goes to standard error' 0 "$good" 'goals open: atom 2' \
        guide "$room/good.card"
    printf '#!/bin/sh\necho half\necho why >&2\nexit 3\n' >"$house_program"
    expect 'the program fails' 2 half 'with status 3' guide "$room/good.card"
    holds 'what it said is told' grep -q '^why$' "$room/err"
    printf '#!/bin/sh\n' >"$house_program"
    expect 'the program says nothing' 2 '' 'has said nothing' guide "$room/good.card"
}

# ---- texts

texts() {
    rm -rf "$room/house/target"
    text "$(card "$good")" >"$room/good.text"
    expect 'a text card' 0 "$good" '(rt run in crates/rigtemple)' guide "$room/good.text"
    expect 'the programs are there' 0 "$good" '' guide "$room/good.text"
    touch -t 200001010000 "$room/house/target/bin/read_text"
    expect 'only the reader is old' 0 "$good" '(rt run in crates/read_text)' guide "$room/good.text"
    expect 'its card' 0 "$(card "$good")" '' guide card "$room/good.text"
    expect 'the card of a card' 2 '' 'is a card already' guide card "$room/good.card"
    expect 'the text of a text' 2 '' 'is a text card already' guide text "$room/good.text"
    refused_texts
    kinds_of_files
    printed
}

refused_texts() {
    for refusal in 3,count 5,weight 6,node 7,rule 8,'action byte' 9,atom 18,nested 25,large; do
        text "refused ${refusal%,*}" >"$room/refused.text"
        expect "a text that is refused with ${refusal%,*}" 1 "refused ${refusal%,*}" \
            "$room/refused.text is refused: ${refusal#*,}: " guide "$room/refused.text"
    done
    text 'refused 17 9' >"$room/slip.text"
    expect 'a slip' 1 'refused 17' "$room/slip.text:2:4: \"u\" cannot stand here; it could be \"i\"
    refused 17 9
       ^" guide "$room/slip.text"
    holds 'its words too' grep -q 'is refused: text: .* (docs/TEXT.md' "$room/err"
    expect 'no card of a refused text' 1 '' 'refused 17' guide card "$room/slip.text"
    expect 'a slip without Python' 1 'refused 17' "$room/slip.text:2: byte 9, from 0
rigtemple: $room/slip.text is refused: text: " \
        env PATH="$room/plain" "$room/house/rigtemple" "$room/slip.text"
    house_reader=$room/house/target/bin/read_text
    printf '#!/bin/sh\necho "the text has over 65,536 bytes" >&2\n' >"$house_reader"
    expect 'a text that is too long' 2 '' "$room/good.text is not read: the text has over" \
        guide "$room/good.text"
    cp "$room/programs/read_text" "$house_reader"
}

# What a file is taken for: the stand-ins say nothing to a file of one line.
kinds_of_files() {
    taken 'an empty file' 'the program has said nothing' ''
    taken 'one byte' 'the program has said nothing' a
    taken 'the mark alone' 'the program has said nothing' 3A
    taken 'another second byte, and a header' 'the program has said nothing' '3B\001\000\004\000'
    taken 'rubbish' 'the program has said nothing' 'atoms\0334'
    taken 'a digit first' 'is not read' '3 atoms'
    taken 'two letters' 'is not read' 'ab'
    taken 'a tab, a CR and letters that are not ASCII' 'is not read' '\t# \303\244\r'
}

taken() { # WHAT WORDS BYTES
    # shellcheck disable=SC2059  # the bytes are a format
    printf "$3" >"$room/file"
    expect "$1" 2 '' "$2" guide "$room/file"
}

printed() {
    expect 'a card as text' 0 "$(text "$(card "$good")")" 'the same card, byte for byte' \
        guide text "$room/good.card"
    expect 'a refused card as text' 1 'refused 6' 'is refused: node' printing 'echo refused 6'
    expect 'a card that shares' 0 "$(text 'a card')" 'of 7 bytes, in which nothing is shared; ' \
        printing 'printf "atoms\na card\n"'
    expect 'a line that is left out' 1 '# left' 'lines that are left out: 1' \
        printing 'echo "# left"'
    expect 'a text that is refused' 1 "$(text 'refused 25')" 'read again, it is refused: large' \
        printing 'printf "atoms\nrefused 25\n"'
}

printing() { # COMMAND
    printf '#!/bin/sh\n%s\n' "$1" >"$room/house/target/bin/print_text"
    guide text "$room/good.card"
}

# ---- names

# A run with two acts, and the same with their names.
acts='card 255 bounded
1 select 0 1 5
2 act 12 1 3
3 revise 0 1 1
4 act 0 0 0
rest 4'
named='card 255 bounded
1 select 0 1 5
2 act 12 1 3  a  name
3 revise 0 1 1
4 act 0 0 0 weave
rest 4'

names() {
    rm -rf "$room/house/target"
    card "$acts" >"$room/acts.card"
    text "$(card "$acts")" >"$room/acts.text"
    printf 'the master' >"$room/master"
    head -c 258 /dev/zero >"$room/shed"
    expect 'names' 0 "$named" '(rt run in crates/move_names)' \
        guide names "$room/acts.card" "$room/master" "$room/shed"
    { printf '\122\000' && cat "$room/acts.card" && printf '\002\001' && cat "$room/shed" &&
        printf '\012\000the master'; } >"$room/asked"
    holds 'what is asked' cmp -s "$room/asked" "$room/house/target/bin/move_names.given"
    expect 'names of a text card' 0 "$named" '(rt run in crates/read_text)' \
        guide names "$room/acts.text" "$room/master" "$room/shed"
    holds 'the same is asked' cmp -s "$room/asked" "$room/house/target/bin/move_names.given"
    expect "the master's alone" 0 "$named" '' guide names "$room/acts.card" "$room/master"
    { printf '\122\000' && cat "$room/acts.card" && printf '\000\000\012\000the master'; } \
        >"$room/asked"
    holds 'no sheet of the shed' cmp -s "$room/asked" "$room/house/target/bin/move_names.given"
    expect 'no names without sheets' 0 "$acts" '' guide "$room/acts.card"
    names_that_fail
    long_sheets
}

names_that_fail() {
    expect 'names of what' 2 '' 'usage: ./rigtemple' guide names "$room/acts.card"
    expect 'a sheet too many' 2 '' 'usage: ./rigtemple' \
        guide names "$room/acts.card" "$room/master" "$room/shed" "$room/shed"
    expect 'a missing sheet' 2 '' "there is no file $room/none" \
        guide names "$room/acts.card" "$room/master" "$room/none"
    expect 'a folder for a sheet' 2 '' "$room/house is a folder" \
        guide names "$room/acts.card" "$room/house"
    expect "a refused sheet of the shed's" 1 'refused 20' \
        "$room/shed is refused as the shed's: sheet: " naming 'echo refused 20 shed'
    holds 'one line about a refused sheet' test "$(wc -l <"$room/err")" -eq 1
    expect "a refused sheet of the master's" 1 'refused 20' \
        "$room/master is refused as the master's: sheet: " naming 'echo refused 20 master'
    card 'refused 6' >"$room/acts.card"
    expect 'a refused card with sheets' 1 'refused 6' 'acts.card is refused: node: ' \
        naming 'echo refused 6'
    card "$good" >"$room/acts.card"
    expect 'a card without specifications' 0 "$good" '' naming :
    expect 'the program for names fails' 2 '' 'with status 3' naming 'exit 3'
    expect 'there are no names' 2 '' 'there are no names: why' naming 'echo why >&2'
    cp "$room/programs/move_names" "$room/house/target/bin"
}

naming() { # COMMAND
    printf '#!/bin/sh\n%s\n' "$1" >"$room/house/target/bin/move_names"
    guide names "$room/acts.card" "$room/master" "$room/shed"
}

# The sheets that are asked about, of the largest that a sheet can be and of one byte more.
long_sheets() {
    card x >"$room/x.card"
    head -c 65535 /dev/zero >"$room/long"
    guide names "$room/x.card" "$room/long" "$room/long" >/dev/null 2>&1
    holds 'sheets of 65,535 bytes' test \
        "$(wc -c <"$room/house/target/bin/move_names.given")" -eq $((2 + 5 + 2 * 65537))
    printf '\0' >>"$room/long"
    guide names "$room/x.card" "$room/long" "$room/long" >/dev/null 2>&1
    holds 'of sheets of 65,536 bytes one byte' test \
        "$(wc -c <"$room/house/target/bin/move_names.given")" -eq $((2 + 5 + 2 * 3))
}

# ---- with the proved programs

# The rows of cards/README.md's table: a file's name, its last line and its words.
# shellcheck disable=SC2016
rows() {
    sed -n 's/^| `\([a-z.]*\)` | .* | `\([a-z0-9 ]*\)` | `\(.*\)` |$/\1;\2;\3/p' \
        "$top/cards/README.md"
}

proved() {
    while IFS=';' read -r name last words; do
        status=0
        case $last in refused*) status=1 ;; esac
        "$top/rigtemple" "$top/cards/$name" >"$room/out" 2>"$room/err"
        ended=$?
        holds "cards/$name" test "$(tail -n 1 "$room/out"), $ended" = "$last, $status"
        holds "cards/$name in words" grep -q -F -e "$words" "$room/err"
    done <"$room/rows"
    left_in_words
    slips
    other_refusals
    there_and_back
    names_in_two_languages
}

# All that is said of three cards.
left_in_words() {
    of_lines='select 0 is selection 0, act 0 is specification 0 (not action 0),'
    of_lines="$of_lines revise 0 is revision 0"
    says stripe.text "$of_lines" 'goals open: none' 'actions in the plan: none'
    says idle.text 'goals open: atom 1' 'actions in the plan: none' \
        'no selection fits: a condition is false in selection 0'
    says stuck.text "$of_lines" 'goals open: atom 1' \
        'actions in the plan: 1, the first is action 2' \
        'action 2 has no move: it has no specification' \
        'no revision fits: the plan begins with the head, but the condition is false in revision 0'
}

says() { # NAME LINE...
    name=$1
    shift
    "$top/rigtemple" "$top/cards/$name" >"$room/out" 2>"$room/err"
    holds "all that is said of $name" test "$(cat "$room/err")" = "$(printf '%s\n' "$@")"
}

# The stripe card's text, changed, and where and why it is then refused.
changed() { # NUMBER CHANGE WORDS
    sed "$2" "$top/cards/stripe.text" >"$room/a slip.text"
    expect "$2" 1 "refused $1" "$room/a slip.text$3" "$top/rigtemple" "$room/a slip.text"
}

slips() {
    changed 17 's/^do 1 if/do 1 of/' ':9:6: "o" cannot stand here; it could be "if"
    do 1 of T add 1 del
         ^'
    changed 17 's/^action 3/actoin 3/' \
        ':6:4: "o" cannot stand here; it could be "ion" (of "action")'
    changed 17 's/if B3 add/if B add/' ':10:10: a space cannot stand here; it could be a digit'
    changed 17 's/^do 2 if B3/do 2 if (B3/' \
        ':10:12: a space cannot stand here; it could be a digit, "|", ")" or "&"'
    changed 17 's/if T goal/if goal/' ':11:11: "g" cannot stand here; it could be "T",'
    changed 17 's/$/\r/' ':2:8: a CR (byte 13) cannot stand here; it could be a digit, a space or'
    changed 17 's/^select/\tselect/' ':11:1: a tab cannot stand here; it could be "begin", "do",'
    changed 17 '/^atoms/d' ':2:2: "c" cannot stand here; it could be "toms" (of "atoms")'
    changed 17 '1s/.*/3 atoms/' ':1:1: "3" cannot stand here; it could be "atoms",'
    changed 17 '/^begin/d' ':15:1: the text ends here; it could go on with "begin", "revise",'
    printf '%s' "$(cat "$top/cards/stripe.text")" >"$room/cut.text"
    expect 'no end of the last line' 1 'refused 17' \
        ':15:31: the text ends here; it could go on with a space or the end of the line
    begin beliefs 0 3 goals 2 plan
                                  ^' "$top/rigtemple" "$room/cut.text"
}

other_refusals() {
    changed 18 "s/^do 1 if T/do 1 if $(printf '%33s' '' | tr ' ' '!')T/" \
        ':9: specification 1: its condition nests 33 deep, and 32 is the most'
    changed 25 's/^action 3/action 65536/' ':6: action 3: its weight is 65,536, and the most that'
    changed 25 's/add 2/add 128/' ':8: specification 0: add: 128 is over 127, the most that is read'
    changed 3 's/^atoms 4/atoms 129/' ':2: there are 129 atoms, and 1 to 128 are allowed'
    changed 3 '/^action/d' ':10: the start: there is no action line before it'
    changed 5 's/^action 3/action 0/' ':6: action 3: its weight is 0, and 1 to 1,024 are allowed'
    changed 6 's/if B3 add/if B4 add/' \
        ':10: specification 2: its condition: there is no atom 4: the card has 0 to 3'
    changed 7 's/goal G2/goal G2\&B1/' \
        ':11: selection 0: its goal condition has B1, and only a belief condition may say B'
    changed 7 's/^revise 4/revise/' ':12: revision 0: its head has 0 actions, and 1 to 1,024 are'
    changed 8 's/to 2 0/to 2 5/' \
        ':13: revision 1: its body: there is no action 5: the card has 0 to 4'
    changed 9 's/goals 2/goals 9/' \
        ':15: the start: the goals: there is no atom 9: the card has 0 to 3'
}

# A text without its remarks and empty lines.
plain() { sed '/^#/d; /^$/d; s/ #.*//' "$1"; } # TEXT

# From a text to a card, and from a card to a text.
there_and_back() {
    "$top/rigtemple" card "$top/cards/growing.text" >"$room/growing.card" 2>"$room/err"
    expect 'a card of a text, as text' 0 "$(plain "$top/cards/growing.text")" \
        'the same card, byte for byte' "$top/rigtemple" text "$room/growing.card"
    expect 'the stripe card as text' 0 "$(plain "$top/cards/stripe.text")" \
        'a card of 283 bytes, in which nothing is shared; ' \
        "$top/rigtemple" text "$top/cards/stripe.card"
    "$top/rigtemple" text "$top/cards/shared.card" >"$room/out" 2>"$room/err"
    holds 'a card that no text says' test $? -eq 1
    holds 'what is left out' grep -q '^# revision 0 is left out: a condition of it' "$room/out"
    holds 'how much is left out' grep -q 'lines that are left out: 3' "$room/err"
    "$top/rigtemple" text "$top/cards/maximal.card" >"$room/out" 2>"$room/err"
    holds 'a card whose text is too long' test $? -eq 1
    holds 'how long' grep -q 'it is not read again: the text has over 65,536 bytes' "$room/err"
    expect 'a refused card as text' 1 'refused 6' 'is refused: node' \
        "$top/rigtemple" text "$top/cards/loop.card"
}

# The stripe card's moves with their names, and its sheets in the wrong order.
names_in_two_languages() {
    english=$top/cards/stripe.en.sheet swedish=$top/cards/stripe.sv.sheet
    # the first time the program for names may have to be proved
    "$top/rigtemple" names "$top/cards/stripe.text" "$english" "$swedish" >"$room/out" 2>&1
    "$top/rigtemple" names "$top/cards/stripe.text" "$english" "$swedish" >"$room/out" 2>"$room/err"
    holds 'names end well' test $? -eq 0
    holds "the shed's name" grep -q -x '3 act 1 1 3 spola' "$room/out"
    holds "the master's, where the shed has none" grep -q -x '5 act 2 1 1 repair' "$room/out"
    "$top/rigtemple" "$top/cards/stripe.text" >"$room/plain.out" 2>"$room/plain.err"
    sed 's/^\([0-9]* act [0-9]* [0-9]* [0-9]*\) .*/\1/' "$room/out" >"$room/cut.out"
    holds 'the lines but for the names' cmp -s "$room/cut.out" "$room/plain.out"
    holds 'what is left, with names' cmp -s "$room/err" "$room/plain.err"
    expect "the shed's for the master's" 1 'refused 20' "$swedish is refused as the master's" \
        "$top/rigtemple" names "$top/cards/stripe.text" "$swedish" "$english"
}

stand_ins
card "$good" >"$room/good.card"
guide "$room/good.card" >/dev/null 2>&1
arguments_and_files
refusals
building
stopping
finding_rt
running
texts
names
rows >"$room/rows"
cards=$(find "$top/cards" -name '*.card' -o -name '*.text' | wc -l)
holds 'cards/README.md has a row for each card' test "$(wc -l <"$room/rows")" -eq "$cards"
if grep -q '^read_text:' "$top/crates.txt"; then proved; fi
echo "$passed passed, $failed failed"
[ "$failed" -eq 0 ]
