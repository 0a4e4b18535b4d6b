#!/bin/sh
# Tests from outside, on files made here and on the samples: the programs check_record, check_exchange, print_sentences
# and check_independence, then ./wethrynda, then ./wethrynda alone with a toolchain and a checker that only pretend.
# Each check that fails says what was expected and what came, and then the status is 1.
set -u

top=$(CDPATH='' cd -- "$(dirname -- "$0")/.." && pwd -P) || exit 1
cd "$top" || exit 1
programs=$top/crates
script=$top/wethrynda
room=$(mktemp -d) || exit 1
trap 'rm -rf "$room"' EXIT
trap 'exit 1' HUP INT TERM

# 16-bit words, low byte first
words() { # NUMBER...
    for word in "$@"; do
        # shellcheck disable=SC2059 # the format is the bytes
        printf "\\$(printf %03o $((word % 256)))\\$(printf %03o $((word / 256)))"
    done
}

zeros() { # COUNT
    dd if=/dev/zero bs="$1" count=1 2>/dev/null
}

complain() { # WHAT EXPECTED GOT
    printf 'tests/script.sh: %s\n  expected: %s\n  got: %s\n' "$1" "$2" "$3" >&2
    echo "$1" >>"$room/failed"
}

# Runs a command and compares its status and the whole of its standard output: the line, or nothing where it is empty.
# Its standard error has to have the text, or to be empty where that is. (Failures are kept in a file, for checks at the
# end of a pipe.)
check() { # WHAT STATUS LINE TEXT COMMAND...
    what=$1 status=$2 wanted=$3 text=$4
    shift 4
    echo "$what" >>"$room/checked"
    "$@" >"$room/out" 2>"$room/err"
    ended=$?
    [ "$ended" -eq "$status" ] || complain "$what" "status $status" "status $ended"
    [ -z "$wanted" ] || wanted=$wanted$newline
    printf %s "$wanted" >"$room/wanted"
    cmp -s "$room/wanted" "$room/out" || complain "$what" "standard output: $wanted" "$(cat "$room/out")"
    if [ -z "$text" ]; then
        [ ! -s "$room/err" ] || complain "$what" 'empty standard error' "$(cat "$room/err")"
    else
        grep -qF -- "$text" "$room/err" || complain "$what" "on standard error: $text" "$(cat "$room/err")"
    fi
}
newline='
'

# Document 01's samples A and C, and the longest record: all words after the sizes are 0, so entry 1 is entry 0 again.
words 2 1 4 1 0 20487 0 0 1 40960 45057 4096 0 >"$room/A"
words 3 1 1 0 0 20487 20488 0 0 0 1 45057 >"$room/C"
# C with the word of principal 8 as its goal.
words 3 1 1 2 0 20487 20488 0 0 0 1 45057 >"$room/of-8"
{ words 4096 256 16384 0 && zeros 49664; } >"$room/longest-record"
# Document 01's samples K and L, and the longest exchange file, with zeros too.
words 3 1 2 7 0 1 12288 0 0 1 2 0 1 24578 0 24578 1 20480 0 1 >"$room/K"
words 1 0 1 1 0 0 0 0 >"$room/L"
{ words 4096 256 256 16384 && zeros 50176; } >"$room/longest-exchange"
: >"$room/empty"
# 256 papers, of the principals 4095 down to 3840, all of which are used for what all 256 say: as many signers as can
# be, and the longest line. The formulas are a0; then the papers, from that of 3840; then the first two of these joined
# by and, and what is joined with each next one.
numbers() { # FIRST LAST
    i=$1
    while [ "$i" -le "$2" ]; do
        echo "$i"
        i=$((i + 1))
    done
}
names=$(numbers 3840 4095)
{
    words 512 256 1279 511
    words 0
    for name in $names; do words $((20480 + name)); done
    words 12289
    for joined in $(numbers 257 510); do words $((12288 + joined)); done
    zeros 514
    for paper in $(numbers 2 256); do words "$paper"; done
    for name in $names; do words $((4096 - name)); done
    for _ in $(numbers 1 255); do words 20480; done
    for paper in $(numbers 1 256); do words 40960 $((45056 + paper)) 4096 0; done
} >"$room/signed"
# The same papers with A's proof, which uses that of 3840 alone.
{
    words 257 256 4 1 0
    for name in $names; do words $((20480 + name)); done
    zeros 514
    for name in $names; do words $((4096 - name)); done
    words 40960 45057 4096 0
} >"$room/one-used"
# shellcheck disable=SC2086,SC2116 # the numbers on one line
all="granted 256 $(echo $names)"
for name in A K longest-record longest-exchange; do
    { cat "$room/$name" && zeros 1; } >"$room/$name+1"
    { cat "$room/$name" && zeros 100000; } >"$room/$name+100000"
done

# The first call of each may have to build, and says so; from then on the checkers are there.
"$script" record "$room/A" >/dev/null 2>"$room/err" || complain 'first call, record' 'status 0' "$(cat "$room/err")"
"$script" exchange "$room/K" >/dev/null 2>"$room/err" || complain 'first call, exchange' 'status 0' "$(cat "$room/err")"
"$script" sentences "$room/A" >/dev/null 2>"$room/err" || complain 'first call, sentences' 'status 0' "$(cat "$room/err")"
"$script" independent 8 "$room/A" >/dev/null 2>"$room/err" ||
    complain 'first call, independent' 'status 0' "$(cat "$room/err")"

# The same for each kind of file: a right one and its line, a refused one with its line and what is said of it, and the
# longest. The kind may have a second word, which is the program's argument.
# shellcheck disable=SC2086 # so the kind and the argument have no quotes
both() { # KIND PROGRAM FILES RIGHT LINE REFUSED LINE TEXT
    kind=$1 argument=${1#"${1%% *}"} name=$2 program=$programs/$2/out/$2 longest=$room/longest-$3
    case $name in
    print_sentences) written=text ;;
    *) written=line ;;
    esac
    shift 3
    set -- "$kind" "$@"
    check "program: $2" 0 "$3" '' "$program" $argument <"$room/$2"
    check "program: $4" 0 "$5" '' "$program" $argument <"$room/$4"
    check "program: no bytes, $1" 0 'refused 1 place 0' '' "$program" $argument <"$room/empty"
    check "program: $2 and a byte" 0 'refused 3 place 0' '' "$program" $argument <"$room/$2+1"
    check "program: $2 and 100,000 bytes" 0 'refused 3 place 0' '' "$program" $argument <"$room/$2+100000"
    check "program: the longest $1" 0 'refused 5 place 1' '' "$program" $argument <"$longest"
    check "program: the longest $1 and a byte" 0 'refused 3 place 0' '' "$program" $argument <"$longest+1"
    check "program: the longest $1 and 100,000 bytes" 0 'refused 3 place 0' '' "$program" $argument <"$longest+100000"
    # in pieces, cut within the sizes and within a word
    {
        dd if="$room/$2" bs=1 count=6 2>/dev/null
        sleep 1
        dd if="$room/$2" bs=1 skip=6 count=9 2>/dev/null
        sleep 1
        dd if="$room/$2" bs=1 skip=15 2>/dev/null
    } | check "program: $2 in pieces" 0 "$3" '' "$program" $argument
    { cat "$longest" && sleep 1 && zeros 1; } |
        check "program: a byte after a pause, $1" 0 'refused 3 place 0' '' "$program" $argument
    check "program: closed input, $1" 0 '' "$name: standard input can't be read" "$program" $argument <&-
    check "program: a folder, $1" 0 '' "$name: standard input can't be read" "$program" $argument <"$room"
    if [ -c /dev/full ]; then
        # shellcheck disable=SC2016 # for the inner shell
        check "program: full output, $1" 0 '' "$name: the $written can't be written" \
            sh -c '"$@" >/dev/full' sh "$program" $argument <"$room/$2"
    fi

    check "script: $2" 0 "$3" '' "$script" $1 "$room/$2"
    check "script: $4" 1 "$5" "$6" "$script" $1 "$room/$4"
    check "script: no bytes, $1" 1 'refused 1 place 0' 'fewer than 8 bytes' "$script" $1 "$room/empty"
    check "script: $2 and a byte" 1 'refused 3 place 0' 'longer or shorter' "$script" $1 "$room/$2+1"
    check "script: the longest $1" 1 'refused 5 place 1' 'Formula 1' "$script" $1 "$longest"
    check "script: standard input, $1" 0 "$3" '' "$script" $1 - <"$room/$2"
    check "script: no such file, $1" 2 '' 'there is no file' "$script" $1 "$room/missing"
    check "script: a folder, $1" 2 '' 'is a folder' "$script" $1 "$room"
    check "script: closed input, $1" 2 '' "standard input can't be read" "$script" $1 - <&-
    check "script: a folder as input, $1" 2 '' "standard input can't be read" "$script" $1 - <"$room"
    check "script: no file named, $1" 2 '' 'usage:' "$script" $1
    if [ "$(id -u)" -ne 0 ]; then
        cp "$room/$2" "$room/closed" && chmod 000 "$room/closed"
        check "script: unreadable, $1" 2 '' "can't be read" "$script" $1 "$room/closed"
        rm -f "$room/closed"
    fi
    if [ -c /dev/full ]; then
        # shellcheck disable=SC2016 # for the inner shell
        check "script: full output, $1" 2 '' ' ' sh -c '"$@" >/dev/full' sh "$script" $1 "$room/$2"
    fi
}
both record check_record record A 'granted 1 7' C 'refused 14 place 0' 'affirmation by that same principal'
both exchange check_exchange exchange K 'equal' L 'refused 12 place 0' "isn't among the hypotheses there"
check 'script: two files, record' 2 '' 'usage:' "$script" record "$room/A" "$room/A"
check 'script: two files, exchange' 2 '' 'usage:' "$script" exchange "$room/K" "$room/K"

# Sentences: as for a record, with the text for the line. Of several files each has its name, and then its text or its
# line, and the status is the highest.
proof='0 says right for (p7 says a0)
1 says left (p7 says a0) for p7 affirms a0
2 affirm for p7 affirms a0
3 init a0 for a0'
both sentences print_sentences record A "$proof" C 'refused 14 place 0' 'affirmation by that same principal'
check 'script: sentences of two files' 0 "$room/A:$newline$proof$newline-:$newline$proof" '' "$script" sentences "$room/A" - <"$room/A"
check 'script: sentences of a refused file first' 1 "$room/C:${newline}refused 14 place 0$newline$room/A:$newline$proof" 'same principal' \
    "$script" sentences "$room/C" "$room/A"
check 'script: sentences of a refused file last' 1 "$room/A:$newline$proof$newline$room/C:${newline}refused 14 place 0" 'same principal' \
    "$script" sentences "$room/A" "$room/C"
check 'script: sentences of standard input twice' 2 '' 'usage:' "$script" sentences - - <"$room/A"
check 'script: sentences of a file that is missing' 2 '' 'there is no file' "$script" sentences "$room/A" "$room/missing"
for stored in samples/*.sentences; do
    check "sample: $stored" 0 "$(cat "$stored")" '' "$script" sentences "${stored%.sentences}.record"
done
check 'sample: a text that is too long' 1 'refused 16 place 0' 'more bytes than there is room for' "$script" sentences samples/doubled-40-times.record

# Independence: as for a record, with a principal's number before the file. A number that no word holds is 17; what is
# no number in digits, or is too long for an argument, is no verdict, and then nothing is read.
both 'independent 8' check_independence record A 'independent' of-8 'not independent' 'may matter'
independence=$programs/check_independence/out/check_independence
outside='refused 17 place 0'
of() { # PRINCIPAL STATUS LINE TEXT
    check "program: A of $1" 0 "$3" '' "$independence" "$1" <"$room/A"
    check "script: A of $1" "$2" "$3" "$4" "$script" independent "$1" "$room/A"
}
for principal in 7 07 00007 "$(printf %030d 7)" "$(printf %04096d 7)"; do
    of "$principal" 1 'not independent' 'may matter'
done
for principal in 0 00 8 08 71 263 4095 04095; do of "$principal" 0 'independent' ''; done
# the first that is none, and a word's last; 7 more than 2^12, 2^16, 2^32 and 2^64; thirty figures
for principal in 4096 4103 65535 65536 65543 4294967303 18446744073709551623 123456789012345678901234567890; do
    of "$principal" 1 "$outside" 'There is no such principal'
done
# 17 comes after 7
for principal in 4096 123456789012345678901234567890; do
    check "program: no bytes, of $principal" 0 'refused 1 place 0' '' "$independence" "$principal" <"$room/empty"
    check "program: the longest record, of $principal" 0 'refused 5 place 1' '' "$independence" "$principal" \
        <"$room/longest-record"
done
for word in '' x 7x x7 -7 +7 -0 ' 7' '7 ' '7 8' 7.0 7,0 0x7 '*' "7$newline" - -- "$(printf %04097d 7)"; do
    check "program: A of '$word'" 0 '' 'usage:' "$independence" "$word" <"$room/A"
    check "script: A of '$word'" 2 '' 'usage:' "$script" independent "$word" "$room/A"
done
check 'program: no principal' 0 '' 'usage:' "$independence" <"$room/A"
check 'program: two principals' 0 '' 'usage:' "$independence" 7 8 <"$room/A"
check 'program: a principal and a file' 0 '' 'usage:' "$independence" 7 "$room/A" </dev/null
echo 'not read' >"$room/unread"
# shellcheck disable=SC2016 # for the inner shell
for word in '' x "$(printf %04097d 7)"; do
    check "program: nothing is read, of '$word'" 0 'not read' 'usage:' sh -c '"$@"; cat' sh "$independence" "$word" \
        <"$room/unread"
done
check 'script: no principal, one file' 2 '' 'usage:' "$script" independent "$room/A"
check 'script: no principal, two files' 2 '' 'usage:' "$script" independent "$room/A" "$room/A"
check 'script: neither principal nor file' 2 '' 'usage:' "$script" independent
check 'script: the file before the principal' 2 '' 'usage:' "$script" independent "$room/A" 7
# Of several files each line is after the file's name, and the status is the highest.
check 'script: two files of 8' 0 "$room/A: independent$newline$room/C: independent" '' \
    "$script" independent 8 "$room/A" "$room/C"
check 'script: two files of 7, not independent first' 1 "$room/A: not independent$newline$room/C: independent" \
    'may matter' "$script" independent 7 "$room/A" "$room/C"
check 'script: two files of 7, not independent last' 1 "-: independent$newline$room/A: not independent" \
    'may matter' "$script" independent 7 - "$room/A" <"$room/C"
check 'script: two files of 8, one refused' 1 "$room/A+1: refused 3 place 0$newline$room/A: independent" \
    "$room/A+1: The file is longer or shorter" "$script" independent 8 "$room/A+1" "$room/A"
check 'script: two files of 4096' 1 "$room/A: $outside$newline$room/empty: refused 1 place 0" \
    'There is no such principal' "$script" independent 4096 "$room/A" "$room/empty"
check 'script: two files of 8, one unreadable' 2 "$room/A: independent" "standard input can't be read" \
    "$script" independent 8 - "$room/A" <&-
check 'script: independence of standard input twice' 2 '' 'usage:' "$script" independent 8 - - <"$room/A"
check 'script: independence of a file that is missing' 2 '' 'there is no file' \
    "$script" independent 8 "$room/A" "$room/missing"
cp "$room/A" "$room/line${newline}feed"
check 'script: two files of 8, a name with a line feed' 2 '' 'has to be given alone' \
    "$script" independent 8 "$room/A" "$room/line${newline}feed"
check 'script: a name with a line feed, alone' 0 'independent' '' "$script" independent 8 "$room/line${newline}feed"
check 'script: independence of a folder' 2 '' 'is a folder' "$script" independent 8 "$room/A" "$room"
for stored in samples/*.independent; do
    while read -r principal line; do
        case $line in
        independent) status=0 text='' ;;
        *) status=1 text=. ;;
        esac
        check "sample: $stored, $principal" "$status" "$line" "$text" \
            "$script" independent "$principal" "${stored%.*}.record" </dev/null
    done <"$stored"
done
check 'program: 256 signers' 0 "$all" '' "$programs/check_record/out/check_record" <"$room/signed"
check 'script: 256 signers' 0 "$all" '' "$script" record "$room/signed"
check 'program: 256 papers, one of them used' 0 'granted 1 3840' '' "$programs/check_record/out/check_record" <"$room/one-used"
check 'script: no words' 2 '' 'usage:' "$script"
check 'script: another word' 2 '' 'usage:' "$script" recrd "$room/A"
check 'script: the name of a program' 2 '' 'usage:' "$script" check_record "$room/A"

# from another folder, by a name with blanks, by a link to the script, by its name alone
mkdir "$room/a folder" && cp "$room/A" "$room/a folder/-a record"
ln -s "$script" "$room/a folder/link"
cd "$room/a folder" || exit 1
check 'script: from another folder' 0 'granted 1 7' '' "$script" record '-a record'
check 'script: by a link' 0 'granted 1 7' '' ./link record '../a folder/-a record'
cd "$top" || exit 1
check 'script: by sh' 0 'granted 1 7' '' sh wethrynda record "$room/A"
check 'script: by sh, exchange' 0 'equal' '' sh wethrynda exchange "$room/K"

# All samples, where their pages say that they are, with the lines that are stored for them. The kind of a file is how
# its name ends.
while read -r name line; do
    case $line in
    refused*) check "sample: $name" 1 "$line" '.' "$script" "${name##*.}" "samples/$name" ;;
    *) check "sample: $name" 0 "$line" '' "$script" "${name##*.}" "samples/$name" ;;
    esac </dev/null
done <crates/samples/stdout

# The script alone: a repository with a toolchain that counts its calls, and a checker that prints what it is told.
repository="$room/a repository"
for name in check_record check_exchange print_sentences check_independence; do
    mkdir -p "$repository/crates/$name/src"
done
mkdir "$room/pretended" "$room/no rt"
cp "$script" "$repository/wethrynda"
script=$repository/wethrynda
source=$repository/crates/check_record/src/main.rt
: >"$source"
: >"$repository/crates.txt"
for tool in cat dirname find mkdir mv readlink rm touch; do ln -s "$(command -v "$tool")" "$room/no rt/$tool"; done
told=$room/told
export told
cat >"$told.checker" <<'END'
#!/bin/sh
cat "$told.line"
exit "$(cat "$told.status")"
END
cat >"$room/pretended/rt" <<'END'
#!/bin/sh
name=${PWD##*/}
echo "$name: $*" >>"$told.calls"
echo noise
echo noise >&2
mkdir -p out && cp "$told.checker" "out/$name"
exit "$(cat "$told.build")"
END
chmod +x "$told.checker" "$room/pretended/rt"

tell() { # STATUS-OF-THE-BUILD STATUS-OF-THE-CHECKER LINE
    echo "$1" >"$told.build"
    echo "$2" >"$told.status"
    echo "$3" >"$told.line"
}

# shellcheck disable=SC2086 # a kind may have two words
pretend() { # KIND WHAT STATUS LINE TEXT
    check "script alone, $1: $2" "$3" "$4" "$5" env PATH="$room/pretended:$PATH" "$script" $1 "$room/A"
}

# shellcheck disable=SC2086 # a kind may have two words
built() { # KIND PROGRAM LINE
    built=$2
    set -- "$1" "$3"
    tell 0 0 "$2"
    check "script alone, $1: no toolchain" 2 '' 'toolchain' env PATH="$room/no rt" "$script" $1 "$room/A"
    tell 1 0 "$2"
    pretend "$1" 'a build that fails' 2 '' 'could not be built'
    pretend "$1" 'what a failed build left' 2 '' 'could not be built'
    tell 0 0 "$2"
    pretend "$1" 'a build' 0 "$2" 'building the checker'
    pretend "$1" 'no build' 0 "$2" ''
    check "script alone, $1: no build and no toolchain" 0 "$2" '' env PATH="$room/no rt" "$script" $1 "$room/A"
    sleep 1
    touch "$source"
    pretend "$1" 'a source that is younger' 0 "$2" 'building the checker'
    rm "$repository/crates/$built/out/$built"
    pretend "$1" 'a program that is missing' 0 "$2" 'building the checker'
    calls=$(grep -cx "$built: run" "$told.calls")
    [ "$calls" -eq 5 ] || complain "script alone, $1: calls of rt" 5 "$calls"
    tell 0 3 "$2"
    pretend "$1" 'a checker that fails' 2 '' 'wethrynda:'
}
built record check_record 'granted 1 7'
built exchange check_exchange 'equal'
built sentences print_sentences "$proof"
built 'independent 8' check_independence 'independent'
# the younger source was not built into the first program
tell 0 0 'granted 1 7'
pretend record 'a source that is younger, again' 0 'granted 1 7' 'building the checker'

known() { # KIND STATUS LINE
    tell 0 0 "$3"
    case $2 in
    0) pretend "$1" "the line '$3'" 0 "$3" '' ;;
    1) pretend "$1" "the line '$3'" 1 "$3" '.' ;;
    2) pretend "$1" "the line '$3'" 2 '' 'wethrynda:' ;;
    esac
}
for number in 1 2 3 4 5 7 9 10 11 12 13 14 15; do
    known record 1 "refused $number place 3"
    known exchange 1 "refused $number place 3"
done
known record 1 'refused 6 place 0'
known record 1 'refused 8 place 0'
known record 0 'granted 0'
known record 0 'granted 2 7 8'
known exchange 0 'equal'
known exchange 1 'refused 9 place 16384'
for number in 1 2 3 4 5 6 7 8 9 10 11 12 13 14 15 16; do
    known sentences 1 "refused $number place 3"
done
known sentences 0 "$proof"
known sentences 0 '0 init a0 for a0'
for number in 1 2 3 4 5 6 7 17; do
    known 'independent 8' 1 "refused $number place 3"
done
known 'independent 8' 1 'not independent'
known 'independent 8' 0 'independent'
for line in 'refused 8 place 0' 'refused 9 place 3' 'refused 15 place 3' 'refused 18 place 0' 'refused 17' \
    'refused 017 place 0' 'not' 'Independent' 'independent 8' ' independent' 'independent ' 'independents' \
    'independent independent' 'not  independent' ' not independent' 'not independent ' 'not not independent' \
    'not independent 8' 'Not independent' 'dependent' "independent${newline}independent" \
    "not independent${newline}independent" "independent${newline}refused 3 place 0" 'granted 0' 'granted 1 7' \
    'equal'; do
    known 'independent 8' 2 "$line"
done
# no text: a number left out, one that isn't the next, no goal, what no text has, a line that isn't of a text
for line in 'init a0 for a0' '1 init a0 for a0' "0 affirm for a0${newline}2 init a0 for a0" '0 init a0' '0 init a0 for ' '0 Init a0 for a0' '0 init a0 for a0;' \
    "0 init a0 for a0${newline}${newline}1 init a0 for a0" "0 init a0 for a0${newline}refused 3 place 0" "refused 3 place 0${newline}0 init a0 for a0" '0  for a0' \
    'refused 17 place 0' 'refused 16 place' 'granted 1 7' 'equal' 'independent' 'not independent' ''; do
    known sentences 2 "$line"
done
# what none of them prints
for line in 'refused 0 place 0' 'refused 16 place 0' 'refused' 'refused 14' 'refused 14 place' 'refused 14 place x' 'refused 14 place 03' 'refused 014 place 3' \
    'refused 14 place 3 4' 'refused 14 place -3' 'refused 14 3' 'refused  14 place 3' 'refused 14 place 3 ' ' refused 14 place 3' 'Refused 14 place 3' 'place 3' \
    "refused 3 place 0${newline}granted 1 7" "refused 3 place 0${newline}equal" 'grants' 'granted' 'granted x' 'granted 5 7' 'granted 1 7 8' 'granted 01 7' 'granted 1  7' \
    'granted 2 8 7' 'granted 2 7 7' 'granted 1 7 ' ' granted 1 7' 'granted 1 *' "granted 1 7${newline}granted 1 7" 'equal 0' 'equal 1 7' 'equal equal' 'equals' 'Equal' ' equal' 'equal ' \
    "equal${newline}equal" "equal${newline}refused 3 place 0" 'equal refused 3 place 0' '7' '*' ''; do
    known record 2 "$line"
    known exchange 2 "$line"
    known 'independent 8' 2 "$line"
done
# what only another prints
for line in 'equal' 'independent' 'not independent' 'refused 17 place 0'; do
    known record 2 "$line"
done
for line in 'granted 0' 'granted 1 7' 'independent' 'not independent' 'refused 6 place 0' 'refused 8 place 0' \
    'refused 17 place 0'; do
    known exchange 2 "$line"
done

# What is said of an exchange file where it differs: both lists, all proofs, a proof that is due; of a short list, that
# the rest is right; and of a principal.
said() { # KIND LINE TEXT
    tell 0 0 "$2"
    pretend "$1" "what is said of '$2'" 1 "$2" "$3"
}
said record 'refused 2 place 0' '0 to 256 statements, 1 to 16,384 steps'
said exchange 'refused 2 place 0' 'each of the two lists, 0 to 16,384 steps'
said exchange 'refused 7 place 3' 'Statement 3 (the first is 0, through the first list and then the second)'
said exchange 'refused 9 place 95' 'a proof is still due'
said record 'refused 12 place 4' 'Step 4 (the first is 0) names'
said exchange 'refused 12 place 4' 'Step 4 (the first is 0, through all proofs) names'
said record 'refused 8 place 0' 'The steps are a proof, but it uses papers of more principals than the list'
said sentences 'refused 8 place 0' 'The steps are a proof, but it uses papers of more principals than the list'
said record 'refused 15 place 7' 'The proof is complete before the steps end'
said exchange 'refused 15 place 7' 'All proofs are complete before the steps end'
said 'independent 8' 'not independent' 'papers may matter. Whether they do is not said.'
said 'independent 8' 'refused 2 place 0' '0 to 256 statements, 1 to 16,384 steps'
said 'independent 8' 'refused 7 place 3' 'Statement 3 (the first is 0) is no formula'
said 'independent 8' 'refused 17 place 0' 'There is no such principal: their numbers are 0 to 4,095.'

if [ -s "$room/failed" ]; then
    printf 'tests/script.sh: %s of %s checks failed\n' "$(sort -u "$room/failed" | wc -l)" "$(wc -l <"$room/checked")" >&2
    exit 1
fi
printf 'tests/script.sh: %s checks passed\n' "$(wc -l <"$room/checked")"
