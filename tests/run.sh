#!/bin/sh
# Runs the built program on each script of tests/golden and tests/udp, on each trace of tests/audit, and on command lines, scripts and
# folders made here, and compares what it prints and its exit status. NAME.script (or NAME.trace) is the input, NAME.out what goes to
# standard output, NAME.err what goes to standard error (none: nothing), NAME.status the exit status (none: 0). Of tests/udp, NAME.1.script,
# NAME.2.script and so on are run one after another over one folder, into which NAME.py, where there is one, writes records first. A file
# that belongs to no input that was run has failed too. The trace of each script of tests/golden that is run, and of each of tests/udp over
# a new folder, is audited, and has to be consistent. The last line is 'N passed, M failed'.
program=$(realpath "${1:-bin/pcommit}")
tests=$(realpath "$(dirname "$0")")
golden=$tests/golden
examples=$tests/../examples
scratch=$(mktemp -d)
trap 'rm -rf "$scratch"' EXIT
passed=0
failed=0

fail() { # NAME WHY
    failed=$((failed + 1))
    echo "FAILED $1: $2"
}

# What the last run left, its status in `got`, against what is wanted.
compare() { # NAME EXPECTED_OUT EXPECTED_ERR EXPECTED_STATUS
    if [ "$got" = "$4" ] && cmp -s "$2" "$scratch/out" && cmp -s "$3" "$scratch/err"; then
        passed=$((passed + 1))
    else
        fail "$1" "status $got, wanted $4"
        diff "$2" "$scratch/out" | head -5
        diff "$3" "$scratch/err" | head -5
    fi
}

check() { # NAME EXPECTED_OUT EXPECTED_ERR EXPECTED_STATUS WORDS..
    name=$1 out=$2 err=$3 status=$4
    shift 4
    "$program" "$@" >"$scratch/out" 2>"$scratch/err"
    got=$?
    compare "$name" "$out" "$err" "$status"
}

# The inputs of a folder, those that end in .KIND, each by what is named: RUN NAME OUT ERR STATUS INPUT.
each() { # FOLDER KIND RUN
    ls -A "$1" >"$scratch/files" || fail "$1" "its files can't be listed"
    grep "\\.$2\$" "$scratch/files" | sort >"$scratch/inputs"
    ran=0
    while IFS= read -r input; do
        name=${input%."$2"}
        err=$1/$name.err
        [ -e "$err" ] || err=/dev/null
        status=0
        [ -e "$1/$name.status" ] && status=$(cat "$1/$name.status")
        "$3" "$name" "$1/$name.out" "$err" "$status" "$1/$input"
        ran=$((ran + 1))
    done <"$scratch/inputs"
    there=$(find "$1" -name "*.$2" | wc -l)
    [ "$ran" -gt 0 ] && [ "$ran" = "$there" ] || fail "$1" "$ran inputs were run of $there"
    while IFS= read -r file; do
        case $file in
        *."$2" | *.out | *.err | *.status) [ -e "$1/${file%.*}.$2" ] || fail "$file" 'it belongs to no input' ;;
        *.py) [ -e "$1/${file%.*}.1.$2" ] || fail "$file" 'it belongs to no input' ;;
        *) fail "$file" 'it belongs to no input' ;;
        esac
    done <"$scratch/files"
}

# a script, whose trace is then audited; five times each, since each process hashes names under a key of its own
run_golden() { # NAME EXPECTED_OUT EXPECTED_ERR EXPECTED_STATUS SCRIPT
    for key in 1 2 3 4 5; do
        check "$1, key $key" "$2" "$3" "$4" run "$5"
        [ "$4" = 0 ] && check "$1, audited, key $key" "$scratch/consistent" /dev/null 0 audit "$2"
    done
}

# a script over a folder, which is new where it is the first of its name
run_udp() { # NAME EXPECTED_OUT EXPECTED_ERR EXPECTED_STATUS SCRIPT
    folder=$scratch/${1%.*}.folder
    records=$tests/udp/${1%.*}.py
    is_new=false
    if [ "${1##*.}" = 1 ]; then
        mkdir "$folder" || fail "$1" 'its folder was there'
        if [ -e "$records" ]; then python3 "$records" "$folder"; else is_new=true; fi
    fi
    check "udp $1" "$2" "$3" "$4" udp "$5" "$folder"
    $is_new && [ "$4" = 0 ] && check "udp $1, audited" "$scratch/consistent" /dev/null 0 audit "$2"
}

run_audit() { # NAME EXPECTED_OUT EXPECTED_ERR EXPECTED_STATUS TRACE
    check "audit $1" "$2" "$3" "$4" audit "$5"
}

echo consistent >"$scratch/consistent"
each "$golden" script run_golden
each "$tests/udp" script run_udp
each "$tests/audit" trace run_audit

# command lines
echo 'pcommit: usage: pcommit run FILE | udp FILE DIR | audit FILE' >"$scratch/usage"
check no_words /dev/null "$scratch/usage" 2
check help /dev/null "$scratch/usage" 2 --help
check help_of_a_word /dev/null "$scratch/usage" 2 help run
check a_version /dev/null "$scratch/usage" 2 --version x
check run_without_file /dev/null "$scratch/usage" 2 run
check audit_without_file /dev/null "$scratch/usage" 2 audit
check no_text /dev/null "$scratch/usage" 2 run "$(printf '\377')"
check help_of_run /dev/null "$scratch/usage" 2 run --help
check two_files /dev/null "$scratch/usage" 2 run a b
check udp_without_folder /dev/null "$scratch/usage" 2 udp a
check two_folders /dev/null "$scratch/usage" 2 udp a b c
check audit_of_two /dev/null "$scratch/usage" 2 audit a b

# files that can't be read
echo 'pcommit: refused 16' >"$scratch/refused"
check missing_file /dev/null "$scratch/refused" 3 run "$scratch/no such file"
check a_folder /dev/null "$scratch/refused" 3 run "$scratch"
check missing_trace /dev/null "$scratch/refused" 3 audit "$scratch/no such file"
check missing_udp_script /dev/null "$scratch/refused" 3 udp "$scratch/no such file" "$scratch"
check missing_udp_folder /dev/null "$scratch/refused" 3 udp "$tests/udp/noise.1.script" "$scratch/no such folder"
check an_unwritable_folder /dev/null "$scratch/refused" 3 udp "$tests/udp/noise.1.script" /proc
check a_file_as_folder /dev/null "$scratch/refused" 3 udp "$tests/udp/noise.1.script" "$scratch/refused"

# faults come in the order: the script, the sizes, the events that aren't for sockets, the records; nothing is made before
refused() { # NAME REFUSAL SCRIPT
    mkdir "$scratch/$1.folder" || fail "$1" 'its folder was there'
    echo "pcommit: refused $2" >"$scratch/$1.err"
    printf "$3" >"$scratch/$1.script"
    check "$1" /dev/null "$scratch/$1.err" 3 udp "$scratch/$1.script" "$scratch/$1.folder"
    [ -z "$(ls -A "$scratch/$1.folder")" ] || fail "$1" 'it left files in the folder'
}
refused udp_line_before_sizes '7 line 3' 'cluster acceptors 2 leaders 1 rms 1\ndeliver 1\nstop r0\n'
refused udp_sizes_before_events 13 'cluster acceptors 2 leaders 1 rms 1\ndeliver 1\n'
refused udp_event_not_for_sockets '7 line 2' 'cluster acceptors 1 leaders 1 rms 1\ntear r0 1\ndeliver 1\n'

# records that are there already: of an older version, with a tail, of another role, and what is no record
one='cluster acceptors 1 leaders 1 rms 1'
frame='\000\000\000\023\001\004\000\000\000\001\001\164\001\000\001\141\001\001\153\001\000\001\061'
over() { # NAME FILE BYTES STATUS ERR OUT
    mkdir "$scratch/$1.folder" || fail "$1" 'its folder was there'
    printf "$3" >"$scratch/$1.folder/$2"
    echo old >"$scratch/$1.folder/$2.new"
    printf '%s\nrecover r0\n' "$one" >"$scratch/$1.script"
    printf "$5" >"$scratch/$1.err"
    printf "$6" >"$scratch/$1.out"
    check "$1" "$scratch/$1.out" "$scratch/$1.err" "$4" udp "$scratch/$1.script" "$scratch/$1.folder"
}
over a_vote_of_version_1 r0.rec "$frame" 0 '' "$one\nrecover r0 -> xids 1:74:61\nfinal r0\n"
over a_tail r0.rec "$frame\000\000\000" 0 '' "$one\nrecover r0 -> xids 1:74:61\nfinal r0\n"
over only_a_tail r0.rec '\000\000\000' 0 '' "$one\nrecover r0 -> xids\nfinal r0\n"
[ -s "$scratch/only_a_tail.folder/r0.rec" ] && fail only_a_tail 'the tail stands'
over of_another_role a0.rec "$frame" 3 'pcommit: refused 4\n' ''
over no_record r0.rec 'no record' 3 'pcommit: refused 4\n' ''
over no_frame l0.rec '\000\000\000\000' 3 'pcommit: refused 4\n' ''

# what was compacted over sockets, and what was written in version 1 and taken up, stands as frames of version 2
python3 - "$scratch" <<END && passed=$((passed + 1)) || fail records 'they are not as they should be'
import glob, sys
folder = sys.argv[1]
tx = '0000000101740100000161'
left = lambda name: open(folder + '/' + name, 'rb').read().hex()
assert left('compacted.folder/r0.rec') == '000000020209' '00000007020a016b000131' '0000000d020b' + tx
assert left('old_first_run.folder/a0.rec') == '000000140202' + tx + '00000000000001'
assert left('old_first_run.folder/l0.rec') == ''
vote = '000000140204' + tx + '01016b01000131'
assert left('old_first_run.folder/r0.rec') == vote + '0000000d0206' + tx
assert left('a_vote_of_version_1.folder/r0.rec') == left('a_tail.folder/r0.rec') == vote
files = glob.glob(folder + '/version_1.folder/*.rec')
assert len(files) == 4
for name in files:
    data = open(name, 'rb').read()
    while data:
        size = int.from_bytes(data[:4], 'big')
        assert data[4] == 2 and len(data) >= 4 + size, name
        data = data[4 + size:]
END

# hostile datagrams, from the program itself and from strangers; and files and sockets that fail
whole() { # SCRIPT WORDS..
    script=$1
    shift
    python3 "$tests/$script" "$program" "$@" >"$scratch/said" 2>&1 || fail "$script" "$(cat "$scratch/said")"
    count=$(tail -n 1 "$scratch/said" | sed -n 's/ passed, 0 failed$//p')
    passed=$((passed + ${count:-0}))
}
whole hostile.py "$scratch"
whole strangers.py
whole devices.py

# a trace cut at every byte: each beginning of it is refused with a line
trace=$tests/audit/in_order.trace
length=$(wc -c <"$trace")
at=0
cuts=0
while [ "$at" -lt "$length" ]; do
    head -c "$at" "$trace" >"$scratch/cut.trace"
    "$program" audit "$scratch/cut.trace" >"$scratch/out" 2>"$scratch/err"
    got=$?
    if [ "$got" = 3 ] && [ ! -s "$scratch/out" ] && grep -q '^pcommit: refused 7 line [0-9]*$' "$scratch/err"; then
        cuts=$((cuts + 1))
    else
        fail "trace cut at byte $at" "status $got"
    fi
    at=$((at + 1))
done
[ "$cuts" = "$length" ] && passed=$((passed + 1))

# a trace whose final lines are missing, doubled, out of order or not the last, and whose lines have words too few or too many
faulty() { # LINE AT FAULT, COMMAND OF sed OVER THE TRACE
    sed "$2" "$tests/audit/split_outcome.trace" >"$scratch/faulty.trace"
    echo "pcommit: refused 7 line $1" >"$scratch/faulty.err"
    check "trace after $2" /dev/null "$scratch/faulty.err" 3 audit "$scratch/faulty.trace"
}
faulty 10 '/^final r0/d'
faulty 11 '/^final r1/d'
faulty 10 '/^final/d'
faulty 11 '/^final r0/p'
faulty 12 '/^final r1/p'
faulty 10 '/^final/s/[01]/2/'
faulty 12 '$a deliver 5 -> ok'
faulty 2 '2s/1//'
faulty 2 '2s/1/1 1/'
faulty 2 '2s/ ok//'
faulty 2 '2s/ok/ok ok/'
faulty 3 '3s/ prepared//'
faulty 3 '3s/$/ prepared/'
faulty 4 3p
faulty 1 '1s/ 2$//'
faulty 1 '1s/$/ 1/'

# names that begin and end in a space
cd "$scratch" || exit 1
cp "$golden/first_branch.script" ' a name '
check spaces_about_a_name "$golden/first_branch.out" /dev/null 0 run ' a name '
check spaces_left_out /dev/null "$scratch/refused" 3 run 'a name'

# a script of more than 64 KB, whose every call is done
sizes='cluster acceptors 1 leaders 1 rms 1'
calls() {
    awk 'BEGIN { for (i = 0; i < 4000; i++) {
        x = sprintf("r0 1:%08x:61", i); print "start " x; print "put " x " 6b 31"; print "end " x; print "rollback " x } }'
}
{ echo "$sizes"; calls; } >large
{ echo "$sizes"; calls | sed 's/$/ -> 0/'; echo 'final r0'; } >large.out
[ "$(wc -c <large)" -gt 65536 ] || fail large_script 'it has no more than 64 KB'
check large_script large.out /dev/null 0 run large

# each beginning of a script: it is run, or refused with its last line
script=$golden/plain_commit.script
ended=0
for length in $(seq 0 "$(wc -c <"$script")"); do
    head -c "$length" "$script" >cut
    echo "pcommit: refused 7 line $(($(wc -l <cut) + 1))" >cut.err
    "$program" run cut >out 2>err
    got=$?
    if [ "$got" = 0 ] && [ ! -s err ] && tail -n 1 out | grep -q '^final r[0-9]'; then
        ended=$((ended + 1))
    else
        [ "$got" = 3 ] && [ ! -s out ] && cmp -s cut.err err || fail beginnings "status $got at $length bytes"
    fi
done
[ "$ended" -gt 9 ] && passed=$((passed + 1)) || fail beginnings "$ended were run"

# each example is a golden script, the same under a comment
for example in "$examples"/*.script; do
    grep -v '^#' "$example" >bare
    out=/dev/null
    for script in "$golden"/*.script; do
        cmp -s bare "$script" && out=${script%.script}.out
    done
    check "$(basename "$example")" "$out" /dev/null 0 run "$example"
done

# output that can't be written, and output that breaks off
: >out
"$program" run large >/dev/full 2>err
got=$?
compare full_output /dev/null refused 3
"$program" run large >&- 2>err
got=$?
compare closed_output /dev/null refused 3
# in the first piece of the output, and in a later one
breaks_off() { # NAME BLOCKS MORE_THAN
    (ulimit -f "$2" && trap '' XFSZ && exec "$program" run large >out 2>err)
    got=$?
    written=$(wc -c <out)
    [ "$written" -gt "$3" ] && [ "$written" -lt "$(wc -c <large.out)" ] || fail "$1" "$written bytes were written"
    head -c "$written" large.out >large.beginning
    compare "$1" large.beginning refused 3
}
breaks_off broken_off_output 64 0
breaks_off broken_off_later 160 65536

# a standard error that can't be written changes no status
: >err
"$program" run 'no such file' >out 2>/dev/full
got=$?
compare full_error /dev/null /dev/null 3
"$program" run 'no such file' >out 2>&-
got=$?
compare closed_error /dev/null /dev/null 3
"$program" >out 2>/dev/full
got=$?
compare full_error_of_usage /dev/null /dev/null 2

# the auditor's word, and a run over sockets, that can't be written
"$program" audit "$trace" >/dev/full 2>err
got=$?
compare full_output_of_audit /dev/null refused 3
: >out
"$program" audit "$trace" >&- 2>err
got=$?
compare closed_output_of_audit /dev/null refused 3
mkdir closed || fail closed 'its folder was there'
"$program" udp "$tests/udp/two_runs.1.script" closed >&- 2>err
got=$?
compare closed_output_of_udp /dev/null refused 3
mkdir folder || fail folder 'its folder was there'
"$program" udp "$tests/udp/two_runs.1.script" folder >/dev/full 2>err
got=$?
compare full_output_of_udp /dev/null refused 3
# what was stored stays: the second run goes on from there
check goes_on_after_full_output "$tests/udp/two_runs.2.out" /dev/null 0 udp "$tests/udp/two_runs.2.script" folder

echo "$passed passed, $failed failed"
[ "$failed" = 0 ]
