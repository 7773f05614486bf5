#!/usr/bin/env bash
# Tests of the command line.
#
#     cli.sh [PROGRAM]
#
# PROGRAM is the launcher ../reqs where none is named, and then the program is built first, so that no old one is
# tested. A line is printed for each test that fails; the last line is `cli: N passed, M failed`.
set -u
export LC_ALL=C.UTF-8

top=$(cd -- "$(dirname -- "$(readlink -f -- "${BASH_SOURCE[0]}")")/.." && pwd) || exit 1
program=$(realpath -- "${1:-$top/reqs}")
passed=0
failed=0

finish() {
    echo "cli: $passed passed, $failed failed"
    [ "$failed" -eq 0 ]
    exit
}

if [ $# -eq 0 ] && ! "$top/build" reqs_cli >/dev/null </dev/null; then
    echo "FAILED: the program was not built"
    failed=1
    finish
fi
if ! "$program" --help >/dev/null </dev/null; then
    echo "FAILED: the program can't be run: $program"
    failed=1
    finish
fi

work=$(mktemp -d) || exit 1
trap 'rm -rf "$work"' EXIT
cd "$work" || exit 1
# (these take longest, so they are begun first)
scripts=(sizes ends numerals objects runs documented)
if command -v python3 >/dev/null; then
    ran=$(mktemp -d -p "$work") || exit 1
    for it in "${scripts[@]}"; do
        python3 "$top/tests/$it.py" "$program" >"$ran/$it" 2>&1 </dev/null &
        begun+=($!)
    done
fi

# run WORDS..: runs the program; its outputs go to the files `out` and `err`, its status to `status`.
run() {
    "$program" "$@" >out 2>err </dev/null
    status=$?
}

# has FILE TEXT: whether the file holds the text and nothing else; the text `SOMETHING` stands for
# any text but the empty one, `ANYTHING` for any.
has() {
    case $2 in
        SOMETHING) [ -s "$1" ] ;;
        ANYTHING) true ;;
        *) printf '%s' "$2" | cmp -s - "$1" ;;
    esac
}

# wants NAME STATUS OUT ERR: judges the last run.
wants() {
    local why=""
    [ "$status" -eq "$2" ] || why="status $status, not $2"
    has out "$3" || why="$why; standard output is $(head -c 300 out | od -An -c | head -n 8 | tr -s ' \n' ' ')"
    has err "$4" || why="$why; standard error is $(head -c 300 err | tr '\n' '|')"
    if [ -z "$why" ]; then
        passed=$((passed + 1))
    else
        failed=$((failed + 1))
        echo "FAILED: $1: ${why#; }"
    fi
}

# environment [LINE..]: an environment, without the lines that hold one of these texts.
environment() {
    local lines=(
        '"implementation_name": "cpython"' '"implementation_version": "3.11.4"' '"os_name": "posix"'
        '"platform_machine": "x86_64"' '"platform_python_implementation": "CPython"'
        '"platform_release": "5.4"' '"platform_system": "Linux"' '"platform_version": "#1"'
        '"python_full_version": "3.11.4"' '"python_version": "3.11"' '"sys_platform": "linux"'
    )
    local line without text=""
    for line in "${lines[@]}"; do
        for without in "$@"; do
            [[ $line == *"$without"* ]] && continue 2
        done
        text="$text${text:+, }$line"
    done
    printf '{%s}\n' "$text"
}

n=$'\n'
environment >E
printf 'Foo_Bar>=1.16\nfoo-bar == 1.19\n' >R
printf 'foo-bar 1.15\nfoo-bar 1.19\nfoo-bar 2.0\n' >C
: >empty

# Answers.
run check R E C
wants "two spellings of a name are one package" 0 "foo-bar 1.19$n" ""
printf 'Foo_Bar>=1.16\n' >lower
run check lower E C
wants "the greatest candidate" 0 "foo-bar 2.0$n" ""
run check empty E C
wants "no lines, no rows" 0 "" ""
run check empty E empty
wants "no lines and no candidates" 0 "" ""
run check R E empty
wants "no candidates" 0 "foo-bar none$n" ""
printf '# a comment\n\n  # another\r\nFoo.Bar==2.0  # pinned\r\n' >comments
run check comments E C
wants "comments and blank lines" 0 "foo-bar 2.0$n" ""
printf "Foo_Bar>=1.16  # any spelling\nfoo-bar == 1.19 ; python_full_version >= '3.8'\n" >marked
run check marked E C
wants "a marker that holds" 0 "foo-bar 1.19$n" ""
printf "b>=1.0 ; python_full_version >= '3.12'\na>=1.0 ; python_full_version >= \"3.8\"\n" >markers
printf 'b 1.0\na 1.9\na 1.10\n' >two
run check markers E two
wants "a line that doesn't apply gives no row" 0 "a 1.10$n" ""
printf 'zope>=1.0\nabc>=1.0\nm.n>=1.0\n' >order
run check order E empty
wants "rows in the order of names" 0 "abc none${n}m-n none${n}zope none$n" ""
printf 'foo==1.0\n' >local
printf 'foo 1.0\nfoo 1.0+x\n' >locals
run check local E locals
wants "a local part of a candidate" 0 "foo 1.0+x$n" ""
printf 'foo>=1.0.dev0\n' >early
printf 'foo 1.0rc1\nfoo v1.0-ALPHA.1-5.dev\nfoo 1!0.1.dev3\n' >spellings
run check early E spellings
wants "candidates in every spelling" 0 "foo 1!0.1.dev3$n" ""
environment python_full_version | sed 's/}/, "python_full_version": " v3.12.0RC1 "}/' >candidate
printf "foo>=1.0 ; python_full_version >= '3.11'\nbar>=1.0 ; python_full_version >= '3.12'\n" >both
run check both candidate empty
wants "an interpreter's release candidate" 0 "foo none$n" ""
printf 'foo-bar[a]\nfoo-bar[b] ; extra == "dev"\n' >extras
run check extras E C dev
wants "an extra" 0 "foo-bar[a,b] 2.0$n" ""
run check extras E C
wants "no extra" 0 "foo-bar[a] 2.0$n" ""
printf 'foo @ https://${WHEELS_HOST}/foo.whl\n' >url
WHEELS_HOST=example.org run check url E C
wants "a variable in a URL" 0 "foo direct$n" ""
WHEELS_HOST='a b' run check url E C
wants "a variable that makes no URL" 2 "" SOMETHING
printf 'foo @ ./foo.whl\n' >path
run check path E C
wants "a path beside the list" 0 "foo direct$n" ""
printf 'foo>=1.0\n' >any
printf 'foo 1.0\nfoo 2.0rc1\n' >final
run check any E final
wants "a pre-release that nobody asks for" 0 "foo 1.0$n" ""
run check early E final
wants "a pre-release where a line names one" 0 "foo 2.0rc1$n" ""
printf 'foo 2.0rc1\n' >unasked
run check any E unasked
wants "a pre-release that nobody asks for, and nothing else" 0 "foo none$n" ""
printf "foo ; 'a' == 'b'\nbar ; os_name == sys_platform\nbaz ; python_version > 'x'\n" >meaningless
run check meaningless E final
wants "comparisons that mean nothing" 0 "bar none${n}baz none${n}foo 1.0$n" ""
run check R E C dev Other_Extra
wants "two extras" 0 "foo-bar 1.19$n" ""
# A path as long as its line has extras, in no order, with the stack that systems mostly give.
extras=400000
awk -v n=$extras 'BEGIN { printf "foo ; extra == \"x0\""; for (i = 1; i < n; i++) printf " and extra == \"x%d\"", i * 7919 % n }' >deep
awk -v n=$extras 'BEGIN { for (i = 0; i < n; i++) print "extra == '"'"'x" i "'"'"'" }' | sort |
    awk '{ printf "%s%s", NR == 1 ? "foo ; " : " and ", $0 } END { print "" }' >in_order
run_small() {
    (ulimit -S -s 8192 && exec "$program" "$@") >out 2>err </dev/null
    status=$?
}
run_small check deep E C x0
wants "a path of $extras extras" 0 "" ""
run_small normal deep
cmp -s in_order out && echo alike >out
wants "the normal form of such a path" 0 "alike$n" ""
run_small same deep in_order
wants "such a path beside the same one in order" 0 "yes$n" ""

# Answers for many environments.
{ printf '['; environment | tr '\n' ','; environment os_name | sed 's/}/, "os_name": "nt"}]/'; } >M
printf "foo>=1.0\nbar ; os_name == 'nt'\n" >some
printf 'foo 1.0\nbar 2.0\n' >foos
run matrix some M foos
wants "matrix" 0 "env 1${n}foo 1.0${n}env 2${n}bar 2.0${n}foo 1.0$n" ""
run matrix extras M C dev
wants "matrix with an extra" 0 "env 1${n}foo-bar[a,b] 2.0${n}env 2${n}foo-bar[a,b] 2.0$n" ""
run matrix --limit 2 some M foos
wants "matrix with a limit" 0 "env 1${n}foo 1.0${n}env 2${n}bar 2.0${n}foo 1.0$n" ""
run matrix some M foos --limit=1
wants "matrix with a limit of one case" 2 "" "reqs: some: more than 1 cases for bar$n"
for i in {01..13}; do printf "foo ; extra == 'x%s'\n" "$i"; done >thirteen
head -n 12 thirteen >twelve
run matrix twelve M foos x02
wants "4096 cases" 0 "env 1${n}foo 1.0${n}env 2${n}foo 1.0$n" ""
run matrix thirteen M foos
wants "more cases than the limit where none is named" 2 "" "reqs: thirteen: more than 4096 cases for foo$n"
run matrix thirteen M foos x02 x13 --limit 8192
wants "8192 cases" 0 "env 1${n}foo 1.0${n}env 2${n}foo 1.0$n" ""
printf '[]' >none
run matrix some none foos
wants "matrix without environments" 0 "" ""
run matrix some E foos
wants "matrix on one environment that is no list" 2 "" "reqs: E: not a list$n"

# Lists alone.
printf 'foo-bar==1.19\nbaz ; os_name == "nt"\n' >pinned
printf 'baz;os_name=="nt"\nFoo.Bar == 1.19.0 # pinned\n' >again
printf 'foo-bar==1.19\nbaz\n' >wider
run same pinned again
wants "two lists that require the same" 0 "yes$n" ""
run same pinned wider
wants "two lists that don't" 1 "no${n}baz${n}os_name != 'nt'$n" ""
run same any early
wants "two lists of which one names a pre-release" 1 "no${n}foo${n}all environments$n" ""
run same wider lower --limit 1
wants "two lists that differ everywhere" 1 "no${n}baz${n}all environments$n" ""
run same --limit 1 pinned again
wants "same with a limit of one case" 2 "" "reqs: pinned: more than 1 cases for baz$n"
run same again url
wants "a list with a URL" 2 "" "reqs: url: line 1: URL$n"
run same thirteen thirteen
wants "same on more cases than the limit" 2 "" "reqs: thirteen: more than 4096 cases for foo$n"
run same twelve twelve
wants "same on 4096 cases" 0 "yes$n" ""
run covers wider pinned
wants "a lock that requires more" 0 "yes$n" ""
run covers pinned wider
wants "a lock that requires less" 1 "no${n}baz${n}os_name != 'nt'${n}2$n" ""
run covers --limit 1 pinned again
wants "covers with a limit of one case" 2 "" "reqs: pinned: more than 1 cases for baz$n"
run covers again url
wants "a list with a URL, for covers" 2 "" "reqs: url: line 1: URL$n"
printf 'foo-bar>=2 ; os_name == "nt"\nbaz\nfoo-bar<2\n' >apart
run conflicts apart
wants "lines that contradict each other" 0 "foo-bar 1,3$n" ""
printf 'foo-bar>=2.0a1\nbaz\nfoo-bar<2.0a1\n' >early_apart
run conflicts early_apart
wants "lines that contradict each other, and name a pre-release" 0 "foo-bar 1,3 pre$n" ""
run conflicts R
wants "no conflict" 0 "" ""
run conflicts --limit 1 apart
wants "conflicts with a limit of one case" 2 "" "reqs: apart: more than 1 cases for foo-bar$n"
run normal R
wants "a normal text" 0 "foo-bar>=1.16${n}foo-bar==1.19$n" ""
run normal again
wants "a normal text with a marker" 0 "baz ; os_name == 'nt'${n}foo-bar==1.19.0$n" ""
run normal url
wants "no normal text of a URL" 2 "" "reqs: url: line 1: URL$n"
printf "foo ; os.name == 'nt'\n" >old
run normal old
wants "no normal text of an old key" 2 "" "reqs: old: line 1: deprecated key$n"

# Answers and faults as objects.
object() {
    printf '{"error":{"kind":"%s","length":%s,"line":%s,"message":"%s","path":%s,"start":%s}}\n' "$@"
}
run check --format json extras E C dev
wants "an object" 0 '{"packages":[{"extras":["a","b"],"name":"foo-bar","outcome":"version","version":"2.0"}]}'"$n" ""
run check empty E C --format=json
wants "an object without rows" 0 '{"packages":[]}'"$n" ""
run conflicts --format json R
wants "an object without conflicts" 0 '{"conflicts":[]}'"$n" ""
run normal empty --format json
wants "an object without requirements" 0 '{"requirements":[]}'"$n" ""
run same any early --format json
wants "an object of a difference that is everywhere" 1 '{"marker":null,"package":"foo","same":false}'"$n" ""
printf 'foo ; sys_platform == "a\\b\x01"\n' >escapes
run normal escapes --format json
wants "a backslash and a control character in an object" 0 \
    '{"requirements":["foo ; sys_platform == '"'a\\\\b\\u0001'"'"]}'"$n" ""
run check --format json absent E C
wants "a file that doesn't open, as an object" 3 "" "$(object read null null 'read fault' '"absent"' null)$n"
run check --format json - - C
wants "standard input twice, as an object" 2 "" \
    "$(object command-line null null 'standard input (-) can be one input alone' null null)$n"
"$program" check R E C --format json >/dev/full 2>err </dev/null
status=$?
: >out
wants "a full standard output, as an object" 3 "" "$(object write null null 'write fault' null null)$n"
"$program" check empty E C --format json >/dev/full 2>err </dev/null
status=$?
wants "an object without rows to a full standard output" 3 "" "$(object write null null 'write fault' null null)$n"
run same again url --format json
wants "a list with a URL, as an object" 2 "" "$(object refused null 1 URL '"url"' null)$n"
run check R E C --format text
wants "the usual format" 0 "foo-bar 1.19$n" ""
run check R E C --format xml
wants "an unknown format" 2 "" SOMETHING
run check R E C --format JSON
wants "a format in capitals" 2 "" SOMETHING
run check R E C --format json --format json
wants "two formats" 2 "" SOMETHING
run matrix some M foos --format json
wants "an object of environments" 0 '{"environments":[{"number":1,"packages":[{"extras":[],"name":"foo","outcome":"version","version":"1.0"}]},'\
'{"number":2,"packages":[{"extras":[],"name":"bar","outcome":"version","version":"2.0"},'\
'{"extras":[],"name":"foo","outcome":"version","version":"1.0"}]}]}'"$n" ""
run matrix --format json some none foos
wants "an object without environments" 0 '{"environments":[]}'"$n" ""
run matrix --format json empty M foos
wants "an object of environments without rows" 0 \
    '{"environments":[{"number":1,"packages":[]},{"number":2,"packages":[]}]}'"$n" ""

# Examples.
for example in "$top"/examples/*/expected.txt; do
    example=${example%/*}
    name=${example##*/}
    command=check
    environments=$example/environment.json
    if [ ! -f "$environments" ]; then
        command=matrix
        environments=$example/environments.json
    fi
    run "$command" "$example/requirements.txt" "$environments" "$example/candidates.txt"
    cp out example.out
    wants "examples/$name: an answer" 0 SOMETHING ""
    if cmp -s example.out "$example/expected.txt"; then
        passed=$((passed + 1))
    else
        failed=$((failed + 1))
        echo "FAILED: examples/$name: the answer is not expected.txt"
        diff example.out "$example/expected.txt" | head -n 5
    fi
done

run matrix "$top"/examples/first/{requirements.txt,environments.json,candidates.txt}
wants "examples/first: answers for two environments" 0 "$(cat "$top/examples/first/expected_matrix.txt")$n" ""
run matrix "$top"/examples/matrix/{requirements.txt,environments.json,candidates.txt} test
cp out rows
wants "examples/matrix: an answer with an extra" 0 SOMETHING ""
[ "$(grep -c '^env ' rows)" -gt 0 ] && [ "$(grep -c '^pytest ' rows)" -eq "$(grep -c '^env ' rows)" ]
status=$?
: >out
wants "examples/matrix: an extra in each environment" 0 "" ""

run same "$top"/examples/lock/{before,after}.txt
wants "examples/lock: a release that changed" 1 "$(cat "$top/examples/lock/expected_same.txt")$n" ""
run same "$top"/examples/lock/{before,rewritten}.txt
wants "examples/lock: the same by another tool" 0 "yes$n" ""
run covers "$top"/examples/lock/{after,wanted}.txt
wants "examples/lock: a release that is forbidden" 1 "$(cat "$top/examples/lock/expected_covers.txt")$n" ""
run covers "$top"/examples/lock/{before,wanted}.txt
wants "examples/lock: what is asked for" 0 "yes$n" ""
run conflicts "$top/examples/apart/requirements.txt"
wants "examples/apart: two lines that contradict each other" 0 \
    "$(cat "$top/examples/apart/expected_conflicts.txt")$n" ""
cat "$top"/examples/apart/{tool,service}.txt >parts
run same "$top/examples/apart/requirements.txt" parts
wants "examples/apart: split in two files" 0 "yes$n" ""
# Each list without its URLs, beside itself turned round and beside its normal text.
for example in "$top"/examples/*/requirements.txt "$top"/examples/lock/{before,rewritten,after}.txt; do
    name=${example#"$top/examples/"}
    name=${name%/requirements.txt}
    grep -v ' @ ' "$example" >one
    tac one >turned
    run same one turned
    wants "examples/$name: turned round" 0 "yes$n" ""
    run normal one
    cp out text
    wants "examples/$name: a normal text" 0 SOMETHING ""
    run same one text
    wants "examples/$name: beside its normal text" 0 "yes$n" ""
    run normal text
    wants "examples/$name: the normal text of a normal text" 0 "$(cat text)$n" ""
done

# The scripts of examples/: what is installed for the machine's own python3, and what is asked of it.
script() {
    python3 "$top/examples/$1" "${@:2}" >out 2>err
    status=$?
}
if command -v python3 >/dev/null; then
    mkdir installed
    script installed.py installed
    wants "examples/installed.py" 0 "" ANYTHING
    # Each installed release satisfies that it is there; a package that isn't installed has no candidate.
    grep -E '^[^ ]+ [0-9]+(\.[0-9]+)*$' installed/candidates.txt >plain
    { sed -E 's/ .*/>=0/' plain; echo 'not-installed>=0'; } >asked
    run check asked installed/environment.json installed/candidates.txt
    cp out rows
    wants "what is installed satisfies a list" 0 SOMETHING ""
    if [ "$(wc -l <rows)" -eq "$(wc -l <asked)" ] && [ "$(grep ' none$' rows)" = "not-installed none" ]; then
        passed=$((passed + 1))
    else
        failed=$((failed + 1))
        echo "FAILED: what is installed: $(wc -l <rows) rows of $(wc -l <asked), and $(grep -c ' none$' rows) none"
    fi
    for name in installed candidates environments; do
        script $name.py --help
        wants "examples/$name.py --help" 0 SOMETHING ""
        script $name.py --frobnicate
        wants "examples/$name.py: an unknown option" 2 "" SOMETHING
        if grep -q Traceback err; then
            failed=$((failed + 1))
            echo "FAILED: examples/$name.py: a traceback for an unknown option"
        else
            passed=$((passed + 1))
        fi
    done
    usage="usage: installed.py [-h] [FOLDER]${n}installed.py: error:"
    script installed.py absent
    wants "installed.py: no folder" 2 "" "$usage no folder: 'absent'$n"
    script installed.py installed installed
    wants "installed.py: two folders" 2 "" "$usage unrecognized arguments: installed$n"
    mkdir -p taken/environment.json
    script installed.py taken
    wants "installed.py: a file that can't be written" 2 "" "installed.py: taken/environment.json: Is a directory$n"

    script environments.py
    wants "environments.py" 0 "$(cat "$top/examples/matrix/environments.json")$n" ""
    : >out
    python3 "$top/examples/environments.py" >/dev/full 2>err
    status=$?
    wants "environments.py: a full standard output" 2 "" "environments.py: standard output: No space left on device$n"

    script candidates.py <"$top/tests/pages/files.json"
    wants "candidates.py: versions by files" 0 "$(cat "$top/tests/pages/files.txt")$n" "$(cat "$top/tests/pages/files_left_out.txt")$n"
    script candidates.py <"$top/tests/pages/versions.json"
    wants "candidates.py: versions as listed" 0 "$(cat "$top/tests/pages/versions.txt")$n" "$(cat "$top/tests/pages/versions_left_out.txt")$n"
    cp out listed
    echo 'Holy_Grail>=1' >names
    run check names E listed
    wants "candidates of an index's page" 0 "holy-grail 1.1.post1$n" ""
    for page in '<html>' '[]' '{"files": []}' '{"name": "a-", "files": []}' '{"name": "a"}' '{"name": "a", "files": [1]}' \
        '{"name": "a", "files": [{"filename": 1}]}' '{"name": "a", "files": [], "versions": [1]}' \
        '{"meta": {"api-version": "2.0"}, "name": "a", "files": []}'; do
        script candidates.py <<<"$page"
        wants "candidates.py: $page" 2 "" SOMETHING
        grep -q '^candidates.py: ' err && ! grep -q Traceback err
        status=$?
        : >err
        wants "candidates.py: what is told of $page" 0 "" ""
    done
else
    failed=$((failed + 1))
    echo "FAILED: python3 is not on the PATH, and the scripts of examples/ need it"
fi

# Inputs that are refused.
printf 'foo-bar>=1.0\n\nfoo- >=1\n' >unread
no_name="line 3, byte 3, length 1${n}Package name must end with an alphanumeric character, not '-'${n}foo- >=1${n}   ^$n"
run check unread E C
wants "a line that is no requirement" 2 "" "reqs: unread: $no_name"
printf "foo-bar\nfoo-bar ; python_version > '3.18446744073709551615'\n" >end
run check end E C
wants "a version number that can't be raised" 2 "" "reqs: end: line 2: a version number can't be raised$n"
printf 'foo @ ../../../../../../../../../../../../../../../foo.whl\n' >above
run check above E C
wants "a path above the root" 2 "" SOMETHING
for line in '-r R' '-c R' '-e .' '--index-url https://e.example/' 'foo --hash=sha256:aa' 'foo>=1 --hash=sha256:aa' 'foo \' \
    'foo>=1 \' 'https://e.example/foo.whl' './foo.whl' $'\xef\xbb\xbffoo'; do
    printf '%s\n' "$line" >pips
    run check pips E C
    wants "what is pip's: $line" 2 "" SOMETHING
done
printf 'foo-bar 1.15\n\nfoo-bar\n' >shape
run check R E shape
wants "a candidate without a version" 2 "" "reqs: shape: line 3: shape$n"
printf 'foo- 1.0\n' >name
run check R E name
wants "a candidate whose name is none" 2 "" "reqs: name: line 1: name$n"
printf 'foo-bar 1.15\nfoo-bar one\n' >version
run check R E version
wants "a candidate whose version is none" 2 "" "reqs: version: line 2: version$n"
environment sys_platform >fewer
run check R fewer C
wants "an environment without sys_platform" 2 "" \
    "reqs: fewer: environment 1: member sys_platform is missing or no text$n"
environment python_version | sed 's/}/, "python_version": "three"}/' >three
run check R three C
wants "an environment with a bad version" 2 "" \
    "reqs: three: environment 1: member python_version is no version$n"
printf '{' >brace
run check R brace C
wants "an environment that isn't JSON" 2 "" "reqs: brace: not JSON$n"
printf '[]' >list
run check R list C
wants "an environment that is a list" 2 "" "reqs: list: not an object$n"
environment | sed 's/}/, "load": 0.5}/' >float
run check R float C
wants "an environment with a float" 2 "" "reqs: float: a number is a float$n"
run check R E C dev -
wants "an extra that is no name" 2 "" "reqs: extra - is no name$n"
run check R E C 'a b'
wants "an extra with a blank" 2 "" "reqs: extra a b is no name$n"
printf 'foo\xff>=1.0\n' >bytes
run check bytes E C
wants "requirements that aren't UTF-8" 2 "" "reqs: bytes: not UTF-8 at byte 3$n"
run check R bytes C
wants "an environment that isn't UTF-8" 2 "" "reqs: bytes: not UTF-8 at byte 3$n"
run check R E bytes
wants "candidates that aren't UTF-8" 2 "" "reqs: bytes: not UTF-8 at byte 3$n"

# What is shown of a text: each control character and each mark that turns the direction of text by its number.
other='Expected one of `@`, `(`, `<`, `=`, `>`, `~`, `!`, `;`, found '
rest="expected 'and', 'or' or end of input"
printf 'foo\033[31m>=1\n' >sequence
sequence="line 1, byte 3, length 1${n}$other\`\\u{1b}\`${n}foo\\u{1b}[31m>=1${n}   ^^^^^^$n"
run check sequence E C
wants "a control sequence in a line" 2 "" "reqs: sequence: $sequence"
run matrix sequence M C
wants "a control sequence in a line, for matrix" 2 "" "reqs: sequence: $sequence"
run same empty sequence
wants "a control sequence in a line, for same" 2 "" "reqs: sequence: $sequence"
run conflicts sequence
wants "a control sequence in a line, for conflicts" 2 "" "reqs: sequence: $sequence"
"$program" normal - >out 2>err <sequence
status=$?
wants "a control sequence in standard input" 2 "" "reqs: -: $sequence"
run normal sequence --format json
wants "a control sequence in a line, as an object" 2 "" \
    "$(object requirement 1 1 "$other"'`\u001b`\nfoo\u001b[31m>=1\n   ' '"sequence"' 3)$n"
cp sequence $'a\r\nb'
run normal $'a\r\nb'
wants "the path of such a list" 2 "" "reqs: a\\u{d}\\u{a}b: $sequence"

# faulty NAME LINE BYTE LENGTH MESSAGE SHOWN BEFORE MARKS: wants this message for the line, the line as it is shown, and
# behind so many columns the marks.
faulty() {
    printf '%b\n' "$2" >faulty
    run normal faulty
    wants "$1" 2 "" "reqs: faulty: line 1, byte $3, length $4$n$5$n$6$n$(printf "%$7s")$8$n"
}
faulty "marks behind a tab" 'foo\t?' 4 1 "$other\`?\`" 'foo\u{9}?' 8 ^
faulty "marks behind a carriage return" 'foo\r?' 4 1 "$other\`?\`" 'foo\u{d}?' 8 ^
faulty "marks before a control character" 'foo[-\033]' 4 1 \
    'Expected an alphanumeric character starting the extra name, found `-`' 'foo[-\u{1b}]' 4 ^
faulty "marks under NUL" 'foo\0000?' 3 1 "$other"'`\u{0}`' 'foo\u{0}?' 3 ^^^^^
faulty "marks under a mark of direction" 'foo\u202e?' 3 3 "$other"'`\u{202e}`' 'foo\u{202e}?' 3 ^^^^^^^^
faulty "marks around a control character" 'foo ; os\033name > 1' 6 7 \
    'Expected a quoted string or a valid marker name, found `os\u{1b}name`' 'foo ; os\u{1b}name > 1' 6 ^^^^^^^^^^^^
faulty "marks beside wide and combining characters" 'foo ; os_name == "\u6f22e\u0301\033" \u6f22\033!' 27 4 \
    "Unexpected character '"$'\u6f22'"', $rest" $'foo ; os_name == "\u6f22e\u0301\\u{1b}" \u6f22\\u{1b}!' 29 ^^^^^^^^
faulty "a mark behind the end of a line" 'foo ; os_name == \v' 18 1 \
    'Expected marker value, found end of dependency specification' 'foo ; os_name == \u{b}' 22 ^
faulty "a backslash stays" 'foo \\u{1b}\033' 4 1 "$other"'`\`' 'foo \u{1b}\u{1b}' 4 ^
printf 'foo @ ../../../../../../../../../../../../../../../${PLACE}\n' >place
PLACE=$'x\033\ny' run check place E C
grep -F 'x\u{1b}\u{a}y' err >/dev/null && wc -l <err >out
wants "a variable's value in a message" 2 "4$n" ANYTHING

for code in {1..31} {127..159} 1564 8206 8207 {8234..8238} {8294..8297}; do
    printf -v c "\\U$(printf %08x "$code")"
    printf -v shown '\\u{%x}' "$code"
    run check R E C "a$c"
    wants "$shown in an extra" 2 "" "reqs: extra a$shown is no name$n"
    run normal "absent$c"
    wants "$shown in a path" 3 "" "reqs: absent$shown: read fault$n"
    run normal "$c"$'\xff'
    wants "$shown in a word that isn't UTF-8" 2 "" "reqs: argument $shown"$'\xef\xbf\xbd'" is not UTF-8$n"
    [ "$c" != "$n" ] || continue
    faulty "$shown in a line" "foo ; os_name == 'a' ?$c." 21 "$(printf '?%s' "$c" | wc -c)" \
        "Unexpected character '?', $rest" "foo ; os_name == 'a' ?$shown." 21 "^${shown//?/^}"
    run "j$c"
    wants "$shown in a word" 2 "" \
        "error: unrecognized subcommand 'j$shown'$n${n}Usage: reqs <COMMAND>$n${n}For more information, try '--help'.$n"
done
run $'j\nk'
wants "a line feed in a word" 2 "" \
    "error: unrecognized subcommand 'j\\u{a}k'\\u{a}\\u{a}Usage: reqs <COMMAND>\\u{a}\\u{a}For more information, try '--help'.$n"
for c in ' ' '~' $'\u00a0' $'\u061b' $'\u061d' $'\u200d' $'\u2010' $'\u2029' $'\u202f' $'\u2065' $'\u206a'; do
    run check R E C "a$c-"
    wants "'$c' is shown as it is" 2 "" "reqs: extra a$c- is no name$n"
done

# The size of an input.
head -c 16777217 /dev/zero | tr '\0' '#' >long
head -c 16777216 long >fits
run check fits E C
wants "requirements of 16777216 bytes, one comment" 0 "" ""
run check R E fits
wants "candidates of 16777216 bytes, one comment" 0 "foo-bar none$n" ""
run check long E C
wants "requirements that are too long" 2 "" "reqs: long: longer than 16777216 bytes$n"
run check R long C
wants "an environment that is too long" 2 "" "reqs: long: longer than 16777216 bytes$n"
run same R long
wants "a right list that is too long" 2 "" "reqs: long: longer than 16777216 bytes$n"
run normal fits
wants "the normal text of one comment" 0 "" ""
run matrix R long C
wants "environments that are too long" 2 "" "reqs: long: longer than 16777216 bytes$n"
run check R E long
wants "candidates that are too long" 2 "" "reqs: long: longer than 16777216 bytes$n"
rm long fits

# Files.
run check absent E C
wants "requirements that don't open" 3 "" "reqs: absent: read fault$n"
run check R absent C
wants "an environment that doesn't open" 3 "" "reqs: absent: read fault$n"
run check R E absent
wants "candidates that don't open" 3 "" "reqs: absent: read fault$n"
run matrix R absent C
wants "environments that don't open" 3 "" "reqs: absent: read fault$n"
run same R absent
wants "a right list that doesn't open" 3 "" "reqs: absent: read fault$n"
run same bytes absent
wants "both lists are opened before any is read" 3 "" "reqs: absent: read fault$n"
run same R bytes
wants "a right list that isn't UTF-8" 2 "" "reqs: bytes: not UTF-8 at byte 3$n"
run conflicts absent
wants "a list that doesn't open, for conflicts" 3 "" "reqs: absent: read fault$n"
bad="Expected a quoted string or a valid marker name, found \`bad\`"
run conflicts absent --assume bad
wants "an assumption that is no marker, before a list that doesn't open" 2 "" \
    "reqs: assumption: line 1, byte 0, length 3${n}$bad${n}bad${n}^^^$n"
run conflicts absent --assume bad --format json
wants "an assumption that is no marker, as an object" 2 "" "$(object assumption 3 1 "$bad"'\nbad\n^^^' null 0)$n"
run conflicts absent --python '>=3.9,x'
wants "Python versions that are no specifiers, before a list that doesn't open" 2 "" \
    "reqs: assumption: line 1, byte 6, length 1${n}Unexpected end of version specifier, expected operator${n}>=3.9,x${n}      ^$n"
run normal absent
wants "a list that doesn't open, for normal" 3 "" "reqs: absent: read fault$n"
run check bytes E absent
wants "all files are opened before any is read" 3 "" "reqs: absent: read fault$n"
mkdir folder
run check folder E C
wants "a folder as a file" 3 "" "reqs: folder: read fault$n"
(cd folder && "$program" check ../R ../E ../C >../out 2>../err </dev/null)
status=$?
wants "paths are relative to the current directory" 0 "foo-bar 1.19$n" ""
(cd folder && "$program" check R ../E ../C >../out 2>../err </dev/null)
status=$?
wants "a path is told as it was given" 3 "" "reqs: R: read fault$n"
mkdir 'a b'
printf 'foo-bar>=1.0\n' >'a b/é'
run check 'a b/é' "$work/E" ./C
wants "blanks and letters past ASCII in a path" 0 "foo-bar 2.0$n" ""

# Standard input in place of a file.
"$program" check - E C >out 2>err <R
status=$?
wants "requirements from standard input" 0 "foo-bar 1.19$n" ""
"$program" check R - C >out 2>err <E
status=$?
wants "an environment from standard input" 0 "foo-bar 1.19$n" ""
"$program" check R E - >out 2>err < <(cat C)
status=$?
wants "candidates from a pipe" 0 "foo-bar 1.19$n" ""
"$program" matrix some - foos >out 2>err <M
status=$?
wants "environments from standard input" 0 "env 1${n}foo 1.0${n}env 2${n}bar 2.0${n}foo 1.0$n" ""
"$program" check unread E - >out 2>err <C
status=$?
wants "a refused list beside standard input" 2 "" "reqs: unread: $no_name"
"$program" check - E C >out 2>err <unread
status=$?
wants "a refused list from standard input" 2 "" "reqs: -: $no_name"
"$program" same - again >out 2>err <pinned
status=$?
wants "the left list from standard input" 0 "yes$n" ""
"$program" same pinned - >out 2>err <wider
status=$?
wants "the right list from standard input" 1 "no${n}baz${n}os_name != 'nt'$n" ""
"$program" covers pinned - >out 2>err <wider
status=$?
wants "the requirements of a lock from standard input" 1 "no${n}baz${n}os_name != 'nt'${n}2$n" ""
"$program" conflicts - >out 2>err <apart
status=$?
wants "conflicts from standard input" 0 "foo-bar 1,3$n" ""
"$program" normal - >out 2>err <unread
status=$?
wants "a refused list from standard input, for normal" 2 "" "reqs: -: $no_name"
run same - -
wants "standard input twice, for same" 2 "" "reqs: standard input (-) can be one input alone$n"
run check - E -
wants "standard input twice" 2 "" "reqs: standard input (-) can be one input alone$n"
run matrix R - - dev
wants "standard input twice, for matrix" 2 "" "reqs: standard input (-) can be one input alone$n"
run check R - - dev
wants "standard input twice, with an extra" 2 "" "reqs: standard input (-) can be one input alone$n"
cp R ./-
run check ./- E C
wants "a file named -" 0 "foo-bar 1.19$n" ""

# Outputs that can't be written.
: >out
"$program" check R E C >/dev/full 2>err </dev/null
status=$?
wants "a full standard output" 3 "" "reqs: write fault$n"
"$program" matrix R M C >/dev/full 2>err </dev/null
status=$?
wants "a full standard output, for matrix" 3 "" "reqs: write fault$n"
"$program" matrix R none C >/dev/full 2>err </dev/null
status=$?
wants "no environments, and nothing to write" 0 "" ""
"$program" same pinned wider >/dev/full 2>err </dev/null
status=$?
wants "a full standard output, for same" 3 "" "reqs: write fault$n"
"$program" covers pinned wider >/dev/full 2>err </dev/null
status=$?
wants "a full standard output, for covers" 3 "" "reqs: write fault$n"
"$program" conflicts R >/dev/full 2>err </dev/null
status=$?
wants "no conflicts, and nothing to write" 0 "" ""
"$program" check R E C >&- 2>err </dev/null
status=$?
wants "a closed standard output" 3 "" "reqs: write fault$n"
exec 3> >(exit 0)
wait $!
"$program" check R E C >&3 2>err </dev/null
status=$?
exec 3>&-
wants "a closed pipe" 3 "" "reqs: write fault$n"
"$program" check R E C </dev/null >/dev/full 2>&1
status=$?
: >err
wants "neither output can be written" 3 "" ""
"$program" check empty E C >/dev/full 2>err </dev/null
status=$?
wants "no rows, and nothing to write" 0 "" ""
"$program" --help >/dev/full 2>err </dev/null
status=$?
wants "help that can't be written" 3 "" ANYTHING

# Standard streams that are closed: none of them becomes an input, and no input becomes one of them.

# without STREAMS WORDS..: runs the program as `run` does, but for the streams that are closed, as `01`.
without() {
    local streams=$1
    shift
    : >out
    : >err
    (
        exec >out 2>err </dev/null
        [[ $streams != *0* ]] || exec <&-
        [[ $streams != *1* ]] || exec >&-
        [[ $streams != *2* ]] || exec 2>&-
        exec "$program" "$@"
    )
    status=$?
}

# refuses STREAMS TEXT WORDS..: runs the program without the streams, and wants a fault that this text names, where
# standard error is open.
refuses() {
    local streams=$1 said="reqs: $2$n"
    shift 2
    without "$streams" "$@"
    [[ $streams != *2* ]] || said=""
    wants "$*, without $streams" 3 "" "$said"
}

inputs=(R E C M wider apart unread empty)
cat "${inputs[@]}" >before
for words in "check R E C" "matrix R M C" "same R wider" "covers R wider" "conflicts apart" "normal R"; do
    read -r -a given <<<"$words"
    run "${given[@]}"
    open=$status
    answer=$(cat out)
    for streams in 0 2 02; do
        without $streams "${given[@]}"
        wants "$words, without $streams" "$open" "$answer$n" ""
    done
    for streams in 1 01 12 012; do
        refuses $streams "write fault" "${given[@]}"
    done
    for ((place = 1; place < ${#given[@]}; place++)); do
        for streams in 0 01 02 012; do
            refuses $streams "-: read fault" "${given[@]:0:place}" - "${given[@]:place+1}"
        done
    done
done
refuses 0 "/dev/stdin: read fault" same R /dev/stdin
without 0 same - R --format json
wants "a closed standard input, as an object" 3 "" "$(object read null null 'read fault' '"-"' null)$n"
without 02 check unread E C
wants "a refused list, without 02" 2 "" ""
without 01 check empty E C
wants "no rows, and nothing to write, without 01" 0 "" ""
without 02 frobnicate
wants "an unknown command, without 02" 2 "" ""
for word in --help --version; do
    without 01 $word
    wants "$word, without 01" 3 "" ANYTHING
done
cat "${inputs[@]}" >out 2>err
status=$?
wants "the inputs afterwards" 0 "$(cat before)$n" ""

# Words.
run --help
wants "--help" 0 "$(cat "$top/tests/help.txt")$n" ""
run check --help
wants "check --help" 0 SOMETHING ""
for name in matrix same covers conflicts normal; do
    run $name --help
    wants "$name --help" 0 SOMETHING ""
done
run help
wants "help" 0 SOMETHING ""
run --version
wants "--version" 0 "reqs 0.3.0$n" ""
built=$top/crates/reqs_cli/out/reqs_cli
(exec -a /else/where "$built" check --help) 2>err </dev/null | sed -n 's/^Usage: //p' >out
status=${PIPESTATUS[0]}
wants "help under another name" 0 "reqs check [OPTIONS] <REQS> <ENV> <CANDIDATES> [EXTRA]...$n" ""
run check R E $'caf\xe9'
wants "a path that isn't UTF-8" 2 "" "reqs: argument caf"$'\xef\xbf\xbd'" is not UTF-8$n"
run check R E "$(printf 'x%.0s' {1..3000})"
wants "a long path" 3 "" SOMETHING
run
wants "no words" 2 "" SOMETHING
run frobnicate
wants "an unknown command" 2 "" SOMETHING
run check
wants "check without files" 2 "" SOMETHING
run check R E
wants "too few files" 2 "" SOMETHING
run matrix R M
wants "matrix with too few files" 2 "" SOMETHING
for limit in 1000001 x '' -1; do
    run matrix R M C --limit "$limit"
    wants "a limit of '$limit'" 2 "" SOMETHING
done
run matrix R M C --limit 0000000
wants "a limit of no cases" 2 "" "reqs: R: more than 0 cases for foo-bar$n"
run matrix R M C --limit 1000000
wants "the greatest limit" 0 "env 1${n}foo-bar 1.19${n}env 2${n}foo-bar 1.19$n" ""
run matrix R M C --limit 5 --limit 6
wants "two limits" 2 "" SOMETHING
run check R E C --limit 1
wants "a limit for check" 2 "" SOMETHING
run normal R --limit 1
wants "a limit for normal" 2 "" SOMETHING
for bound in 18446744073709551616 x '' -1; do
    run matrix R M C --cases "$bound"
    wants "at most '$bound' cases" 2 "" SOMETHING
    run normal R --nodes "$bound" --clauses 1
    wants "at most '$bound' nodes" 2 "" SOMETHING
done
run matrix R M C --cases 0
wants "no cases in all" 2 "" "reqs: R: more than 0 cases in all$n"
run check R E C --nodes 1
wants "a bound on nodes for check" 2 "" SOMETHING
run conflicts R --clauses 1
wants "a bound on clauses for conflicts" 2 "" SOMETHING
run normal R --cases 1
wants "a bound on all cases for normal" 2 "" SOMETHING
run normal R --nodes 1 --nodes 2
wants "two bounds on nodes" 2 "" SOMETHING
run same R
wants "same with one list" 2 "" SOMETHING
run same R R C
wants "same with three files" 2 "" SOMETHING
run conflicts R R
wants "conflicts with two lists" 2 "" SOMETHING
for words in "check R E C" "matrix R M C" "normal R"; do
    # shellcheck disable=SC2086
    run $words --assume "os_name == 'a'"
    wants "an assumption for ${words%% *}" 2 "" SOMETHING
done
run conflicts R --assume
wants "an assumption without a marker" 2 "" SOMETHING
run conflicts R --assume "os_name == 'a'" --assume "os_name == 'b'"
wants "two assumptions" 2 "" SOMETHING
run same R R --assume ''
wants "an empty assumption" 2 "" SOMETHING
run conflicts R --python
wants "Python versions without specifiers" 2 "" SOMETHING
run conflicts R --python '>=3.9' --python '<3.13'
wants "specifiers twice" 2 "" SOMETHING
run same R R --python '===3.9'
wants "a specifier that no marker has" 2 "" SOMETHING
run conflicts R --python ''
wants "no specifiers" 0 "" ""
for words in "check R E C" "matrix R M C" "normal R"; do
    # shellcheck disable=SC2086
    run $words --assume-real
    wants "real interpreters for ${words%% *}" 2 "" SOMETHING
done
{
    printf "foo>=2 ; sys_platform == 'win32'\nfoo<2 ; os_name == 'posix'\n"
    printf "bar>=2 ; python_version < '3.9'\nbar<2\n"
} >places
run conflicts places
wants "conflicts of any environments" 0 "bar 3,4${n}foo 1,2$n" ""
run conflicts places --python '>=3.9,<3.13'
wants "conflicts of some Python versions" 0 "foo 1,2$n" ""
run conflicts places --assume-real
wants "conflicts of real interpreters" 0 "bar 3,4$n" ""
run conflicts places --assume-real --python '>=3.9' --assume "os_name == 'posix'"
wants "all assumptions together" 0 "" ""
run covers R R --assume "python_version <= '3.18446744073709551615'"
wants "an assumption with a number that can't be raised" 2 "" SOMETHING
run normal
wants "normal without a list" 2 "" SOMETHING
run same R R --limit 1000001
wants "a limit past the greatest, for same" 2 "" SOMETHING
run conflicts R --limit 0
wants "a limit of no cases, for conflicts" 2 "" "reqs: R: more than 0 cases for foo-bar$n"
run check --frobnicate R E C
wants "an unknown option" 2 "" SOMETHING

# The stored runs, the same runs asked for objects, the command lines of the documents, inputs of each size, numbers at
# their end, and readers and writers that fail.
stored() {
    grep -v "^$1: " "$ran/$1"
    line=$(grep -E "^$1: [0-9]+ passed, [0-9]+ failed\$" "$ran/$1" | tail -n 1)
    if [ -n "$line" ]; then
        line=${line#"$1: "}
        good=${line%% passed*}
        bad=${line##*, }
        passed=$((passed + good))
        failed=$((failed + ${bad%% failed}))
    else
        failed=$((failed + 1))
        echo "FAILED: tests/$1.py ended without its closing line"
    fi
}
if command -v python3 >/dev/null; then
    wait "${begun[@]}"
    for it in "${scripts[@]}"; do
        stored "$it"
    done
else
    failed=$((failed + 1))
    echo "FAILED: python3 is not on the PATH, and the stored runs need it"
fi
finish
