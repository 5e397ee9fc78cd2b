#!/usr/bin/env bash
# Runs the built program over real files: what no contract can say of files, standard output and the process.
#
#     checks/program.sh [PROGRAM]       PROGRAM is crates/ntx/out/ntx if it is not given; rt ci and rt run leave it there
#
# It ends with 0 if each case is as it has to be. It is skipped, with 0, if a tool that it needs is missing.
cd "$(dirname "$0")/.." || exit 1

for tool in mktemp cmp od timeout; do
    if ! command -v "$tool" >/dev/null; then
        echo "checks/program.sh: skipped, since there is no $tool"
        exit 0
    fi
done
program=$(realpath "${1:-crates/ntx/out/ntx}")
font=$(realpath crates/ntx/data/T.tfm)
if [ ! -x "$program" ]; then
    echo "checks/program.sh: there is no program $program: run rt ci, or rt run in crates/ntx"
    exit 1
fi
room=$(mktemp -d) || exit 1
trap 'rm -rf "$room"' EXIT
cd "$room" || exit 1
failed=0

# The files of a job: the document is given, the script and the patterns are empty, and there is no DVI file.
job() {
    rm -rf -- job
    mkdir job && cd job || exit 1
    printf "$1" >document
    : >script
    : >patterns
}

# One case: its name, the status and the lines that are wanted, and the words of the command line.
ends() {
    local name=$1 status=$2 lines=$3
    shift 3
    timeout 60 "$program" "$@" >../lines 2>../errors
    wants "$name" "$status" $?
    printf "$lines" >../wanted
    cmp -s ../lines ../wanted || complain "$name" "other lines: $(cat ../lines)"
    [ ! -s ../errors ] || complain "$name" "written to standard error: $(cat ../errors)"
}

wants() {
    [ "$2" = "$3" ] || complain "$1" "status $3, and not $2"
}

# The DVI file has these bytes, in hexadecimal digits.
has() {
    local found
    found=$(od -An -v -tx1 "$2" 2>/dev/null | tr -d ' \n')
    [ "$found" = "$(tr -d ' \n' <<<"$3")" ] || complain "$1" "other bytes in $2: $found"
}

complain() {
    echo "checks/program.sh: $1: $2"
    failed=1
}

box='hbox\nrule 65536 65536 0\nend'
box_file='
    f702018392c01c3b0000000003e8036e7478
    8b00000001000000000000000000000000000000000000000000000000000000000000000000000000ffffffff
    8d9f0a0000840001000000010000 8e8c
    f800000012018392c01c3b0000000003e8000a0000000100000001 0001
    f90000004f02dfdfdfdfdfdf'
empty_file='
    f702018392c01c3b0000000003e8036e7478
    f8ffffffff018392c01c3b0000000003e8000000000000000000000000
    f90000001202dfdfdfdfdfdfdf'
# The letter a in a font of the name T at 10 points, 655360 below the top: its definition stands before it and in the postamble.
letter_file='
    f702018392c01c3b0000000003e8036e7478
    8b00000001000000000000000000000000000000000000000000000000000000000000000000000000ffffffff
    8d9f0a0000 f30000000000000a0000000a0000000154 ab61 8e8c
    f800000012018392c01c3b0000000003e8000a0000000500000001 0001
    f30000000000000a0000000a0000000154
    f90000005902dfdfdfdfdfdfdf'

# ---- the file of a document, and what is refused

job "$box"
ends 'four paths' 0 '' document script patterns dvi
has 'four paths' dvi "$box_file"
cd ..

job "$box"
ends 'a number of steps' 0 '' document script --steps 5 patterns dvi
has 'a number of steps' dvi "$box_file"
cd ..

job "$box"
mv document -- --document
ends 'paths after two hyphens' 0 '' --steps=5 -- --document script patterns dvi
has 'paths after two hyphens' dvi "$box_file"
cd ..

job ''
printf 'x%.0s' {1..5000} >dvi
ends 'an empty document, and a DVI file that is there before' 0 '' document script patterns dvi
has 'an empty document, and a DVI file that is there before' dvi "$empty_file"
cd ..

job "$box"
mv document -- -
ends 'a path that is a hyphen' 0 '' - script patterns 'd v i'
has 'a path that is a hyphen' 'd v i' "$box_file"
cd ..

job 'hbox\nrule 1 2 x\nend'
ends 'a document that is refused' 3 '! Document line 2 Number\n' document script patterns dvi
has 'a document that is refused' dvi ''
[ -e dvi ] || complain 'a document that is refused' 'no DVI file'
cd ..

job "$box"
echo x >script
ends 'a script that is refused' 4 '! Script line 0 Size\n' document script patterns dvi
cd ..

job "$box"
echo y >patterns
ends 'patterns that are refused' 5 '! Patterns line 0\n' document script patterns dvi
cd ..

# ---- fonts

job "$box"
cp "$font" T.tfm
ends 'a font' 0 '' document script patterns dvi T.tfm
has 'a font' dvi "$box_file"
ends 'a font twice, at two sizes' 0 '' document script patterns dvi T.tfm@655360 ./T.tfm@1
head -c 403 T.tfm >short.tfm
ends 'a font that is refused' 6 '! Font 2 Short\n' document script patterns dvi T.tfm short.tfm
has 'a font that is refused' dvi ''
ends 'no font' 9 '! ReadFault font 1\n' document script patterns dvi U.tfm
cp T.tfm 'T U.tfm'
printf 'x' >dvi
ends 'a font whose name has a space' 2 '! Words\n' document script patterns dvi T.tfm 'T U.tfm'
ends 'a font without a name' 2 '! Words\n' document script patterns dvi .tfm
ends 'a font without a path' 2 '! Words\n' document script patterns dvi @5
has 'fonts whose names are refused' dvi 78
cd ..

# ---- text

job 'hbox\ntext a\nend'
cp "$font" T.tfm
ends 'a letter' 0 '' document script patterns dvi T.tfm
has 'a letter' dvi "$letter_file"
ends 'a letter without a font' 3 '! Document line 2 Font\n' document script patterns dvi
cd ..

job 'hbox\ntext A\nend'
cp "$font" T.tfm
ends 'a letter that the font lacks' 8 '! EngineFault NoChar in hpack\n' document script patterns dvi T.tfm
has 'a letter that the font lacks' dvi ''
cd ..

job 'hbox\nrule 1 1073741823 1\nend'
ends 'a rule that is too low' 8 '! EngineFault Dimension in ship\n' document script patterns dvi
has 'a rule that is too low' dvi f702018392c01c3b0000000003e8036e7478
cd ..

# ---- words

job "$box"
ends 'no words' 2 '! Words\n'
ends 'three words' 2 '! Words\n' document script patterns
ends 'an option' 2 '! Words\n' document script patterns --dvi
ends 'an abbreviated option' 2 '! Words\n' --step 5 document script patterns dvi
ends 'an option twice' 2 '! Words\n' --steps 5 --steps 5 document script patterns dvi
ends 'no steps' 2 '! Words\n' --steps 0 document script patterns dvi
ends 'a word that is not UTF-8' 2 '! Words\n' document script patterns $'d\xffi'
[ "$(ls)" = "$(printf 'document\npatterns\nscript')" ] || complain 'refused words' "other files: $(ls)"
cd ..

# ---- files that fail

for missing in document script patterns; do
    job "$box"
    rm $missing
    ends "no $missing" 9 "! ReadFault $missing\n" document script patterns dvi
    has "no $missing" dvi ''
    cd ..
done

job "$box"
mkdir dvi
ends 'a DVI file that is a folder' 10 '' document script patterns dvi
cd ..

# ---- standard output that fails

# The DVI file takes no descriptor of standard output, whatever is closed.
for closed in '>&-' '<&- >&-' '<&- >&- 2>&-' '>&- 2>&-'; do
    job 'foo'
    rm script patterns
    eval "timeout 60 \"\$program\" document script patterns dvi $closed"
    wants "a line that cannot be written, $closed" 10 $?
    has "a line that cannot be written, $closed" dvi ''
    cd ..
    job 'foo'
    rm document script patterns
    eval "timeout 60 \"\$program\" document script patterns dvi $closed"
    wants "no input, $closed" 10 $?
    has "no input, $closed" dvi ''
    cd ..
    job "$box"
    eval "timeout 60 \"\$program\" document script patterns dvi $closed"
    wants "nothing to print, $closed" 0 $?
    has "nothing to print, $closed" dvi "$box_file"
    cd ..
done

if [ -w /dev/full ]; then
    job 'foo'
    timeout 60 "$program" document script patterns dvi >/dev/full
    wants 'a full disk' 10 $?
    has 'a full disk' dvi ''
    cd ..
fi

[ $failed = 0 ] && echo "checks/program.sh: each case is as it has to be"
exit $failed
