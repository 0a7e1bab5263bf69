#!/bin/sh
# Runs the program on the examples, and once for each way in which a run can end. Compares what it wrote, its status and
# what it said on standard error: a line, and behind a 2, 6 or 7 a second one.
#
#     checks/check.sh [PROGRAM]       without PROGRAM: the one that ./gmus runs, which it builds where that is due
#
# No proof says what the system does with what it is handed, so this looks at it from outside: reports that come whole
# through a slow pipe, and devices, pipes and files that take only a part of one.
checks=$(CDPATH='' cd -- "$(dirname -- "$0")" && pwd) || exit 1
here=$(CDPATH='' cd -- "$checks/../examples" && pwd) || exit 1
program=${1-}
if [ -z "$program" ]; then
    "$here/../gmus" drill 0 1 >/dev/null || exit 1
    program=$here/../bin/gmus
    [ -f "$program" ] || program=$here/../crates/gmus/out/gmus
fi
case $program in /*) ;; *) program=$PWD/$program ;; esac
room=$(mktemp -d) || exit 1
trap 'rm -rf "$room"' EXIT
cd "$room" || exit 1
failed=0

differs() { # what was tried, and what is wrong with it
    echo "differs $1: $2"
    failed=1
}

# Two lines on standard error.
both() { # the first, and what the second says
    printf '%s\n  %s' "$1" "$2"
}

# Judges the run before: its status, what it said on standard error, and its output in the file out.
judge() { # what was tried, wanted status, wanted line or both, file with the wanted output
    if [ "$status" != "$2" ]; then
        differs "$1" "status $status in place of $2"
    elif [ "$(cat err)" != "$3" ]; then
        differs "$1" "standard error has '$(cat err)' in place of '$3'"
    elif ! cmp -s out "$4"; then
        differs "$1" "the output is another one"
    else
        echo "ok      $1"
    fi
}

try() { # what to try, wanted status, wanted line or both, file with the wanted output, the program's words
    what=$1 wanted=$2 line=$3 output=$4
    shift 4
    "$program" "$@" >out 2>err </dev/null
    status=$?
    judge "$what" "$wanted" "$line" "$output"
}

# A partial report: lines of the whole one, in its order, with their counts.
try_partial() { # what to try, wanted status, wanted line, the whole report, wanted number of sets (or none), the program's words
    what=$1 wanted=$2 line=$3 whole=$4 sets=$5
    shift 5
    "$program" "$@" >out 2>err </dev/null
    status=$?
    grep '^[um]' out >found
    conflicts=$(grep -c '^u' found)
    corrections=$(grep -c '^m' found)
    {
        head -n 1 "$whole"
        echo 's PARTIAL'
        grep -xF -f found "$whole"
        echo "e $conflicts $corrections"
    } >partial
    judge "$what" "$wanted" "$line" partial
    [ -z "$sets" ] || [ "$sets" -eq $((conflicts + corrections)) ] || differs "$what" "another number of sets"
}

: >nothing
printf 'p gcnf 1 2 1\n{2} 1 0\n' >refused

# As many pairs of opposite groups: so many conflicts, and 2 to the power of that many corrections.
pairs() {
    awk -v n="$1" 'BEGIN { print "p gcnf", n, 2 * n, 2 * n; for (v = 1; v <= n; v++) printf "{%d} %d 0\n{%d} -%d 0\n", 2 * v - 1, v, 2 * v, v }'
}
pairs_report() {
    awk -v n="$1" '
        function corrections(v, set) {
            if (v > n) { print "m" set " 0"; return }
            corrections(v + 1, set " " 2 * v - 1)
            corrections(v + 1, set " " 2 * v)
        }
        BEGIN {
            print "p gmus", 2 * n; print "s COMPLETE"
            for (v = 1; v <= n; v++) print "u", 2 * v - 1, 2 * v, 0
            corrections(1, "")
            print "e", n, 2 ^ n
        }'
}
pairs 8 >pairs.gcnf
pairs_report 8 >pairs.report

for file in "$here"/*.gcnf "$here"/*.cnf; do
    name=${file##*/}
    try "$name" 0 '' "${file%.*}.report" list "$file"
done
try 'many sets' 0 '' pairs.report list pairs.gcnf

# Any number of workers gives the same whole report, and as many sets up to a limit.
for jobs in 1 2 3 7 64; do
    for file in "$here"/*.gcnf "$here"/*.cnf; do
        name=${file##*/}
        try "$name by $jobs" 0 '' "${file%.*}.report" list "$file" --jobs "$jobs"
    done
    try "many sets by $jobs" 0 '' pairs.report list --jobs="$jobs" pairs.gcnf
    try_partial "a limit of 5 by $jobs" 4 'gmus: limit of 5 records reached' "$here/laptop.report" 5 list "$here/laptop.gcnf" --limit 5 --jobs "$jobs"
done

# Words without a reading: the second line has the word that can't stand there, and says what may.
wrong() { # what the second line says, the program's words
    more=$1
    shift
    try "wrong words: $*" 2 "$(both 'gmus: bad command line' "$more")" nothing "$@"
}
first="has to be list, check, drill, export, roles or carry"
for word in lst List help --help -h --version -V -- - --jobs list.gcnf ''; do
    wrong "$word: the first word $first" "$word" list f
done
wrong 'the first word is missing: list, check, drill, export, roles or carry'
wrong "l\\u{a}\\u{1b}st: the first word $first" "$(printf 'l\n\033st')"
wrong 'list: FILE is missing' list
wrong 'list: FILE is missing' list --jobs 2
wrong 'check: FILE is missing' check
wrong 'check: EVIDENCE is missing' check f
wrong 'drill: SEED is missing' drill
wrong 'drill: SIZE is missing' drill 7
wrong 'export: NUMBER is missing' export f e
wrong 'export: LRAT is missing' export f e 1 cnf
wrong 'roles: FILE is missing' roles --focus 1
wrong 'carry: NEW is missing' carry f e
wrong 'g: one word too many, as list takes FILE' list f g
wrong 'g: one word too many, as check takes FILE and EVIDENCE' check f e g
wrong '3: one word too many, as drill takes SEED and SIZE' drill 1 2 3
wrong 'g: one word too many, as export takes FILE, EVIDENCE, NUMBER, CNF and LRAT' export f e 1 cnf lrat g
wrong '--jobs: one word too many, as roles takes FILE' roles f -- --jobs 2
wrong 'g: one word too many, as carry takes OLD, EVIDENCE and NEW' carry f e f g
options='--jobs, --conflicts, --limit, --evidence, --resume, --journal and --focus'
for word in --job --help -j --Jobs --jobs2 --=2; do
    wrong "${word%=*}: list takes $options" list f "$word" 2
done
wrong '--limit: check takes --focus' check f e --limit=5
wrong '--limit: drill takes --jobs' drill 7 12 --limit 5
wrong '-1: drill takes --jobs' drill -1 12
wrong '--jobs: export takes no option' export f e 1 cnf lrat --jobs 2
wrong '--limit: roles takes --jobs and --focus' roles f --limit 3
wrong '--focus: carry takes --jobs and --evidence' carry f e f --focus 1
for value in 0 65 -0 x 1.5 '' ' 1' 18446744073709551617; do
    wrong "--jobs $value: has to be a number from 1 to 64" list f "--jobs=$value"
done
wrong '--limit 0: has to be a number from 1 to 1000000000' list f --limit 0
wrong '--conflicts 18446744073709551616: has to be a number from 0 to 18446744073709551615' list f --conflicts=18446744073709551616
list='a list of numbers from 1 to 4294967295 with commas between them'
for value in 1-3 0 1,,2 '1, 2' 4294967296 ''; do
    wrong "--focus $value: has to be $list" list f "--focus=$value"
done
wrong '--jobs: a number from 1 to 64 is missing' list f --jobs
wrong '--jobs: a number from 1 to 64 is missing' list --jobs --limit 5 f
wrong '--conflicts: a number from 0 to 18446744073709551615 is missing' list f --conflicts -1
wrong '--evidence: a name is missing' list f --evidence
wrong "--focus: $list is missing" check f e --focus
wrong '--jobs: may stand once' list f --jobs 2 --jobs=3
wrong '--evidence: may stand once' carry f e f --evidence a --evidence
wrong '0: SIZE has to be a number from 1 to 1000' drill 7 0
wrong 'x: SEED has to be a number from 0 to 18446744073709551615' drill x 12
for number in 0 1000000001 one ''; do
    wrong "$number: NUMBER has to be a number from 1 to 1000000000" export f e "$number" cnf lrat
done
wrong '--journal: may not stand beside --resume' list f --journal j --resume e
wrong '--journal: may not stand beside --resume' list --resume=j f --journal=j
wrong 'cnf: CNF and LRAT have to be two files' export f e 1 cnf cnf
wrong 'word 1: has to be UTF-8' "$(printf '\377')" f
wrong 'word 3: has to be UTF-8' list --evidence "$(printf 'e\300')" f

# Reasons of the system's.
no_file='No such file or directory (os error 2)'
folder='Is a directory (os error 21)'
no_space='No space left on device (os error 28)'
too_large='File too large (os error 27)'
links='Too many levels of symbolic links (os error 40)'
try_partial 'no budget' 3 'gmus: budget of 0 conflicts spent' "$here/door.report" '' list "$here/door.gcnf" --conflicts 0
try_partial 'a small budget' 3 'gmus: budget of 9 conflicts spent' pairs.report '' list --conflicts=9 pairs.gcnf
try_partial 'a limit of 1' 4 'gmus: limit of 1 records reached' "$here/first.report" 1 list "$here/first.gcnf" --limit 1
try_partial 'a limit of 5' 4 'gmus: limit of 5 records reached' "$here/laptop.report" 5 list "$here/laptop.gcnf" --limit 5
try_partial 'a limit of all' 4 'gmus: limit of 5 records reached' "$here/first.report" 5 list "$here/first.gcnf" --limit 5
try 'a refused file' 5 'gmus: input refused: 5 GroupTooBig at line 2 byte 2' nothing list refused
try 'an empty file' 5 'gmus: input refused: 1 NoHeader at line 1 byte 1' nothing list nothing
try 'a file that is not there' 6 "$(both 'gmus: read fault on input' "lost: $no_file")" nothing list lost
try 'a folder that is not there' 6 "$(both 'gmus: read fault on input' "lost/f: $no_file")" nothing list lost/f
try 'a folder' 6 "$(both 'gmus: read fault on input' ".: $folder")" nothing list .
ln -s loop loop
try 'a link to itself' 6 "$(both 'gmus: read fault on input' "loop: $links")" nothing list loop

# Cases that two numbers make, whose counts are known beforehand; no file is read or written for them.
echo 'drill 16 8 13' >drilled
for jobs in 1 4; do
    try "a drill by $jobs" 0 '' drilled drill 7 12 --jobs "$jobs"
done

# Evidence about the three smallest problems has no step that isn't needed: an input that is a goal is named itself.
try_evidence() { # what to try, the file's text, the wanted evidence; each with "%" for a line's end
    printf '%s' "$2" | tr '%' '\n' >small.gcnf
    printf '%s' "$3" | tr '%' '\n' >wanted
    "$program" list small.gcnf --evidence written >out 2>err </dev/null
    status=$?
    mv written out
    judge "$1" 0 '' wanted
}
try_evidence 'evidence about nothing' 'p gcnf 0 0 0%' 'p gmev 2 0 0 0%m 0%w 0 0%x 1%e complete%'
try_evidence 'evidence about a background' 'p gcnf 1 2 1%{0} 1 0%{0} -1 0%' 'p gmev 2 1 2 1%u 0%d 3 0 1 2 0%r 0 3%x 1%e complete%'
try_evidence 'evidence about an empty clause' 'p gcnf 0 1 1%{1} 0%' \
    'p gmev 2 0 1 1%u 1 0%r 0 1%w 1 0%m 1 0%w 0 0%t 1 1%d 3 0 1 2 0%x 3%e complete%'

# Evidence: as it is, cut before it is closed, with a hint left out, about another file, and none.
evidence=$here/first.evidence
try 'evidence' 0 '' "$here/first.report" check "$here/first.gcnf" "$evidence"
sed '29,$d' "$evidence" >partial_evidence
echo 'e partial' >>partial_evidence
sed 's/^s COMPLETE$/s PARTIAL/' "$here/first.report" >partial_report
try 'partial evidence' 0 '' partial_report check "$here/first.gcnf" partial_evidence
sed '8s/ 1 3 4 0$/ 1 4 0/' "$evidence" >bad_evidence
try 'a step without a hint' 9 'gmus: evidence refused: line 8: 12 NotFalse' nothing check "$here/first.gcnf" bad_evidence
try 'evidence about another file' 9 'gmus: evidence refused: line 1: 4 OtherProblem' nothing check "$here/door.gcnf" "$evidence"
try 'a refused file with evidence' 5 'gmus: input refused: 5 GroupTooBig at line 2 byte 2' nothing check refused "$evidence"
no_evidence=$(both 'gmus: read fault on evidence' "lost: $no_file")
try 'no evidence' 6 "$no_evidence" nothing check "$here/first.gcnf" lost

# The roles of groups, of which nothing is written unless all are told.
printf 'p roles 4\nr 1 every\nr 2 some\nr 3 some\nr 4 some\n' >roles
printf 'p roles 4\nr 1 every\nr 2 every\nr 3 none\nr 4 none\n' >roles_in_focus
for jobs in 1 4; do
    try "roles by $jobs" 0 '' roles roles "$here/first.gcnf" --jobs "$jobs"
    try "roles in focus by $jobs" 0 '' roles_in_focus roles --focus=2,1,2 "$here/first.gcnf" --jobs "$jobs"
done
try 'roles of a refused file' 5 'gmus: input refused: 5 GroupTooBig at line 2 byte 2' nothing roles refused
try 'roles of no file' 6 "$(both 'gmus: read fault on input' "lost: $no_file")" nothing roles lost
if [ -c /dev/full ]; then
    "$program" roles "$here/first.gcnf" >/dev/full 2>err </dev/null
    status=$?
    cp nothing out
    judge 'roles to a full device' 7 "$(both 'gmus: write fault on report' "standard output: $no_space")" nothing
fi
if ! command -v python3 >/dev/null; then
    echo 'skipped the roles of each example: no python3'
elif python3 "$checks/roles.py" "$program" "$here"/*.gcnf "$here"/*.cnf >found 2>&1; then
    echo "ok      roles as the reports have them: $(cat found)"
else
    differs 'roles as the reports have them' "$(cat found)"
fi

# A listing goes on from evidence: from the whole of it with nothing to learn, and from a part; it may be written over.
try 'whole evidence resumed' 0 '' "$here/first.report" list "$here/first.gcnf" --resume "$evidence" --conflicts 0
try 'a limit that is resumed' 4 'gmus: limit of 5 records reached' partial_report list "$here/first.gcnf" --resume "$evidence" --limit 5
try 'bad evidence resumed' 9 'gmus: evidence refused: line 8: 12 NotFalse' nothing list "$here/first.gcnf" --resume bad_evidence
try 'no evidence resumed' 6 "$no_evidence" nothing list "$here/first.gcnf" --resume lost
for jobs in 1 4; do
    "$program" list pairs.gcnf --limit 100 --evidence part --jobs "$jobs" >out 2>err </dev/null
    try "a part resumed by $jobs" 0 '' pairs.report list pairs.gcnf --resume part --evidence part --jobs "$jobs"
    try "what it wrote by $jobs" 0 '' pairs.report check pairs.gcnf part
done

# A journal is made, read back and gone on from. What is no journal is not opened, and a false record is refused.
try_journal() { # what to try; the journal then has the one record of no groups
    try "$1" 0 '' none.report list none.gcnf --journal j
    cmp -s j wanted || differs "$1" 'the journal is another one'
}
printf 'p gcnf 0 0 0\n' >none.gcnf
printf 'p gmus 0\ns COMPLETE\nm 0\ne 0 1\n' >none.report
printf '\001\000\000\000\000\000\000\000\012m 0\nw 0 0\n\000' >wanted
try_journal 'a journal that is made'
try_journal 'a journal with nothing to add'
printf '\000' | dd of=j conv=notrunc 2>/dev/null
try_journal 'a journal whose first gate is closed'
journal_fault='gmus: read fault on journal'
echo 'a text' >j
cp j before
try 'a text as a journal' 6 "$(both "$journal_fault" 'j: is no journal; if a crash left it so, remove it')" nothing list none.gcnf --journal j
cmp -s j before || differs 'a text as a journal' 'it was changed'
rm j
try_journal 'a journal that is made anew'
sed 's/m/u/' wanted >j
cp j before
try 'a journal with a false record' 10 'gmus: journal refused at byte 0' nothing list none.gcnf --journal j
cmp -s j before || differs 'a journal with a false record' 'it was changed'
try 'a journal of another file' 10 'gmus: journal refused at byte 0' nothing list "$here/first.gcnf" --journal wanted
try 'a folder as a journal' 6 "$(both "$journal_fault" ".: $folder")" nothing list none.gcnf --journal .
try 'a journal in no folder' 6 "$(both "$journal_fault" "lost/j: $no_file")" nothing list none.gcnf --journal lost/j
try 'a journal of a refused file' 5 'gmus: input refused: 5 GroupTooBig at line 2 byte 2' nothing list refused --journal new
try 'a journal of no file' 6 "$(both 'gmus: read fault on input' "lost: $no_file")" nothing list lost --journal new
[ ! -e new ] || differs 'a journal of a refused file' 'it was made'
for jobs in 1 4; do
    rm -f part
    try_partial "a limit with a journal by $jobs" 4 'gmus: limit of 5 records reached' "$here/laptop.report" 5 list "$here/laptop.gcnf" --limit 5 --journal part --jobs "$jobs"
    try "a part of a journal by $jobs" 0 '' "$here/laptop.report" list "$here/laptop.gcnf" --journal part --jobs "$jobs" --evidence written
    try "the evidence beside a journal by $jobs" 0 '' "$here/laptop.report" check "$here/laptop.gcnf" written
    rm -f whole
    try "a whole journal by $jobs" 0 '' "$here/first.report" list "$here/first.gcnf" --journal whole --jobs "$jobs"
    try "a whole journal and nothing to learn by $jobs" 0 '' "$here/first.report" list "$here/first.gcnf" --journal whole --jobs "$jobs" --conflicts 0
done
if (
    trap '' XFSZ
    ulimit -f 2 || exit 1
    "$program" list "$here/laptop.gcnf" --journal full >out 2>err </dev/null
    echo $? >status
); then
    status=$(cat status)
    judge 'a journal with little room' 7 "$(both 'gmus: write fault on journal' "full: $too_large")" nothing
    try 'the same with room' 0 '' "$here/laptop.report" list "$here/laptop.gcnf" --journal full
else
    echo 'skipped a journal with little room: no limit for files'
fi
if command -v python3 >/dev/null; then
    python3 "$here/../tools/journal.py" "$here/laptop.gcnf" part >written
    sed 's/^s COMPLETE$/s PARTIAL/' "$here/laptop.report" >partial_report
    try 'the records of a journal' 0 '' partial_report check "$here/laptop.gcnf" written
    if python3 "$checks/kills.py" "$program" >found 2>&1; then
        echo "ok      journals of killed runs: $(cat found)"
    else
        differs 'journals of killed runs' "$(cat found)"
    fi
else
    echo 'skipped journals of killed runs: no python3'
fi

# Files: one under two names, what is left of an output, which journals are opened, and what comes in which order.
part() { # what the part looks at, its program, and further words
    what=$1 part=$2
    shift 2
    if python3 "$checks/$part" "$program" "$@" >found 2>&1; then
        echo "ok      $what: $(cat found)"
    else
        differs "$what" "$(cat found)"
    fi
}
if command -v python3 >/dev/null; then
    part 'files under two names, outputs and journals' outputs.py
    part 'two runs on one journal, and kills over a name' races.py --rounds 10
    if strace -f -o /dev/null true 2>/dev/null; then
        part 'the calls of a journal' journal_calls.py
        part 'the calls of an output' output_calls.py
    else
        echo 'skipped the calls of a journal and of an output: strace is not there or may not trace'
    fi
else
    echo 'skipped files under two names, outputs, journals and their calls: no python3'
fi

# Evidence that is asked for: whole and partial ones are accepted, by this program and by one that shares nothing with it.
accepted() { # the problem, its evidence, and the report that both have to give
    try "evidence of ${1##*/}" 0 '' "$3" check "$1" "$2"
    if command -v python3 >/dev/null; then
        python3 "$here/../tools/check_evidence.py" "$1" "$2" >out 2>err
        status=$?
        judge "evidence of ${1##*/}, by check_evidence.py" 0 '' "$3"
    fi
}
for file in "$here"/*.gcnf "$here"/*.cnf pairs.gcnf; do
    name=${file##*/}
    report=${file%.*}.report
    try "$name with evidence" 0 '' "$report" list "$file" --evidence written
    accepted "$file" written "$report"
done
try_partial 'a small budget with evidence' 3 'gmus: budget of 9 conflicts spent' pairs.report '' list --conflicts=9 pairs.gcnf --evidence=written
accepted pairs.gcnf written partial
try_partial 'a limit with evidence' 4 'gmus: limit of 5 records reached' "$here/laptop.report" 5 list "$here/laptop.gcnf" --limit 5 --evidence written
accepted "$here/laptop.gcnf" written partial
evidence_fault='gmus: write fault on evidence'
try 'evidence into a folder' 7 "$(both "$evidence_fault" ".: $folder")" nothing list "$here/first.gcnf" --evidence .
try 'evidence without a name' 7 "$(both "$evidence_fault" ": $no_file")" nothing list "$here/first.gcnf" --evidence=
try 'evidence of a refused file' 5 'gmus: input refused: 5 GroupTooBig at line 2 byte 2' nothing list refused --evidence none
[ -e none ] && differs 'evidence of a refused file' 'it was opened'
[ ! -c /dev/full ] || try 'evidence on a full device' 7 "$(both "$evidence_fault" "/dev/full: $no_space")" nothing list "$here/first.gcnf" --evidence /dev/full

# A file that got longer is listed from evidence about what it was, whole or partial, by any number of workers.
try 'evidence of the old file' 0 '' "$here/laptop.report" list "$here/laptop.gcnf" --evidence old
try_partial 'evidence of some sets' 4 'gmus: limit of 5 records reached' "$here/laptop.report" 5 list "$here/laptop.gcnf" --limit 5 --evidence some
for known in old some; do
    for jobs in 1 4; do
        try "a longer file from $known by $jobs" 0 '' "$here/laptop_more.report" carry "$here/laptop.gcnf" $known "$here/laptop_more.gcnf" --jobs $jobs --evidence written
        accepted "$here/laptop_more.gcnf" written "$here/laptop_more.report"
    done
done
try 'a file that is no longer one' 12 'gmus: not an extension: clause 0' nothing carry "$here/laptop_more.gcnf" written "$here/laptop.gcnf"
try 'evidence of the longer file' 9 'gmus: evidence refused: line 1: 4 OtherProblem' nothing carry "$here/laptop.gcnf" written "$here/laptop_more.gcnf"
if command -v python3 >/dev/null; then
    python3 "$here/../tools/gcnf.py" --after "$here/laptop.gcnf" "$here/laptop_more.rules" >longer
    cmp -s longer "$here/laptop_more.gcnf" || differs 'the longer file' 'it is another one'
fi

# An export is two files, with nothing on standard output: the clauses of a conflict, and their refutation.
try_export() { # what to try, the file, its evidence, the conflict's number, the wanted CNF, and the wanted refutation
    rm -f cnf lrat
    try "$1" 0 '' nothing export "$2" "$3" "$4" cnf lrat
    cmp -s cnf "$5" || differs "$1" 'the CNF is another one'
    cmp -s lrat "$6" || differs "$1" 'the refutation is another one'
}
printf 'p cnf 2 2\n1 0\n-1 0\n' >first_1.cnf
echo '3 0 1 2 0' >first_1.lrat
try_export 'an export' "$here/first.gcnf" "$evidence" 1 first_1.cnf first_1.lrat
for file in first.gcnf free_layout.gcnf one_line.gcnf; do
    try_export "an export of $file" "$here/$file" "$here/first_short.evidence" 2 "$here/first_2.cnf" "$here/first_2.lrat"
done
printf 'p gcnf 0 1 1\n{1} 0\n' >empty.gcnf
printf 'p gmev 1 0 1 1\nu 1 0\nr 0 1\nw 1 0\ne partial\n' >empty.evidence
printf 'p cnf 0 1\n0\n' >empty.cnf
echo '2 0 1 0' >empty.lrat
try_export 'an export of an empty clause' empty.gcnf empty.evidence 1 empty.cnf empty.lrat
rm -f cnf lrat
try 'no such conflict' 11 'gmus: no conflict 3' nothing export "$here/first.gcnf" "$evidence" 3 cnf lrat
try 'the greatest number of a conflict' 11 'gmus: no conflict 1000000000' nothing export "$here/first.gcnf" "$evidence" 1000000000 cnf lrat
try 'an export of a refused file' 5 'gmus: input refused: 5 GroupTooBig at line 2 byte 2' nothing export refused "$evidence" 3 cnf lrat
try 'an export by bad evidence' 9 'gmus: evidence refused: line 8: 12 NotFalse' nothing export "$here/first.gcnf" bad_evidence 3 cnf lrat
try 'an export of no file' 6 "$(both 'gmus: read fault on input' "lost: $no_file")" nothing export lost "$evidence" 1 cnf lrat
try 'an export by no evidence' 6 "$no_evidence" nothing export "$here/first.gcnf" lost 1 cnf lrat
export_fault='gmus: write fault on export'
try 'a CNF into a folder' 7 "$(both "$export_fault" ".: $folder")" nothing export "$here/first.gcnf" "$evidence" 1 . lrat
[ ! -c /dev/full ] || try 'a CNF on a full device' 7 "$(both "$export_fault" "/dev/full: $no_space")" nothing export "$here/first.gcnf" "$evidence" 1 /dev/full lrat
[ ! -e cnf ] && [ ! -e lrat ] || differs 'an export that fails' 'an output was opened'
try 'a refutation into a folder' 7 "$(both "$export_fault" ".: $folder")" nothing export "$here/first.gcnf" "$evidence" 1 cnf .
cmp -s cnf first_1.cnf || differs 'a refutation into a folder' 'the CNF is another one'
[ ! -c /dev/full ] || try 'a refutation on a full device' 7 "$(both "$export_fault" "/dev/full: $no_space")" nothing export "$here/first.gcnf" "$evidence" 1 cnf /dev/full

# Each conflict of each example is exported, and what was written is compared and checked by programs that share nothing with it.
if command -v python3 >/dev/null; then
    python3 "$here/../tools/check_lrat.py" "$here/first_2.cnf" "$here/first_2.lrat" >out 2>err
    status=$?
    echo 's VERIFIED' >verified
    judge 'the stored export, by check_lrat.py' 0 '' verified
    if python3 "$checks/exports.py" "$program" "$here"/*.gcnf "$here"/*.cnf pairs.gcnf >out 2>err; then
        echo "ok      exports of each conflict: $(cat out)"
    else
        differs 'exports of each conflict' "$(cat out err)"
    fi
else
    echo 'skipped the exports of each conflict: no python3'
fi

report_fault='gmus: write fault on report'
if [ -c /dev/full ]; then
    "$program" list "$here/first.gcnf" >/dev/full 2>err </dev/null
    status=$?
    cp nothing out
    judge 'a full device' 7 "$(both "$report_fault" "standard output: $no_space")" nothing
    "$program" list refused >out 2>/dev/full </dev/null
    status=$?
    cp nothing err
    judge 'a full device for errors' 5 '' nothing
fi

"$program" list "$here/first.gcnf" >&- 2>err </dev/null
status=$?
cp nothing out
judge 'a closed output' 7 "$(both "$report_fault" 'standard output: Bad file descriptor (os error 9)')" nothing

# A file that may have so many blocks takes a part of the last write, and the next one fails.
if (
    trap '' XFSZ
    ulimit -f 2 || exit 1
    "$program" list pairs.gcnf >out 2>err </dev/null
    echo $? >status
); then
    status=$(cat status)
    size=$(wc -c <out)
    head -c "$size" pairs.report >front
    [ "$size" -gt 0 ] || differs 'a file with little room' 'nothing was written'
    [ "$size" -lt "$(wc -c <pairs.report)" ] || differs 'a file with little room' 'it took all'
    judge 'a file with little room' 7 "$(both "$report_fault" "standard output: $too_large")" front
else
    echo 'skipped a file with little room: no limit for files'
fi

# More bytes to read than there is memory for.
head -c 8000000 /dev/zero | tr '\0' c >long
if (
    ulimit -v 6000 || exit 1
    "$program" list long >out 2>err </dev/null
    echo $? >status
); then
    status=$(cat status)
    judge 'little memory' 8 'gmus: out of memory' nothing
else
    echo 'skipped little memory: no limit for memory'
fi
try 'the same with memory' 5 'gmus: input refused: 1 NoHeader at line 1 byte 8000001' nothing list long

# Random problems, listed whole and partly with evidence that is checked.
if command -v python3 >/dev/null; then
    if python3 "$checks/roundtrip.py" "$program" >out 2>err; then
        echo "ok      random problems with evidence: $(cat out)"
    else
        differs 'random problems with evidence' "$(cat out err)"
    fi
else
    echo 'skipped random problems: no python3'
fi

# Pipes whose reader is slow, takes few bytes, or goes away.
if command -v python3 >/dev/null; then
    for reader in slow gone; do
        case $reader in
            slow) wanted=0 line='' output=pairs.report ;;
            gone) wanted=7 line=$(both "$report_fault" 'standard output: Broken pipe (os error 32)') output=nothing ;;
        esac
        python3 "$checks/reader.py" "$reader" "$program" list pairs.gcnf >out 2>err
        status=$?
        judge "a pipe whose reader is $reader" "$wanted" "$line" "$output"
    done
else
    echo 'skipped pipes: no python3'
fi

exit $failed
