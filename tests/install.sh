#!/usr/bin/env bash
# Tests of the script `install`, into folders for temporary files and from another folder. The last line is
# `install: N passed, M failed`.
set -u
export LC_ALL=C.UTF-8

top=$(cd -- "$(dirname -- "$(readlink -f -- "${BASH_SOURCE[0]}")")/.." && pwd) || exit 1
source "$top/tests/counted.sh" || exit 1
work=$(mktemp -d) || exit 1
trap 'rm -rf "$work"' EXIT
cd "$work" || exit 1
files=(
    bin/reqs
    libexec/reqs/reqs
    share/man/man1/reqs.1
    share/bash-completion/completions/reqs
    share/zsh/site-functions/_reqs
    share/fish/vendor_completions.d/reqs.fish
)
pages=("${files[@]:2}")

# run WORDS..: runs the script; its outputs go to the files `out` and `err`, its status to `status`.
run() {
    "$top/install" "$@" >out 2>err </dev/null
    status=$?
}

# Whether the last run was refused with this status, by one sentence and nothing else.
is_refused() {
    [ "$status" -eq "$1" ] && [ ! -s out ] && [ "$(wc -l <err)" -eq 1 ] && grep -q '^install: ' err
}

# The files below a folder, with their sums.
left_in() {
    (cd "$1" && find . | sort && find . -type f -exec cksum {} + | sort)
}

# Whether a refused run leaves a folder as it was.
leaves() {
    local before
    before=$(left_in "$1")
    run "${@:2}"
    is_refused 1 && [ "$(left_in "$1")" = "$before" ]
}

are_all_there() {
    local it
    for it in "${files[@]}"; do
        [ -f "$1/$it" ] || return
    done
    [ "$(find "$1" -type f | wc -l)" -eq "${#files[@]}" ]
}

# What is installed, into a folder whose name the launcher has to quote.
prefix="$work/it's a \$place"
(umask 077 && "$top/install" "it's a \$place" >out 2>err </dev/null)
status=$?
holds "an installation" [ "$status" -eq 0 ]
holds "the files of an installation" are_all_there "$prefix"
printf '%s\n' "${files[@]/#/$prefix/}" | sort >wanted
sort out >told
holds "the files are told" cmp -s wanted told
holds "a PATH without the program is told" grep -q '^install: .*PATH$' err
holds "the program can be run by all" [ "$(stat -c %a "$prefix/libexec/reqs/reqs" "$prefix/bin/reqs" | sort -u)" = 755 ]
holds "the pages can be read by all" [ "$(stat -c %a "${pages[@]/#/$prefix/}" | sort -u)" = 644 ]
holds "nothing names the tree" [ -z "$(grep -rlaF "$top" "$prefix")" ]

example=$top/examples/spelling
cp "$example/requirements.txt" R
cp "$example/environment.json" E
cp "$example/candidates.txt" C
answer() {
    env -i PATH="$prefix/bin:/usr/bin:/bin" reqs "$@" >out 2>err <R
    status=$?
}
answer check R E C
holds "an answer" [ "$status $(cat out)" = "0 foo-bar 1.19" ]
answer check - E C
holds "a list from standard input" [ "$status $(cat out)" = "0 foo-bar 1.19" ]
answer check absent E C
holds "a refusal" [ "$status $(cat err)" = "3 reqs: absent: read fault" ]
"$prefix/bin/reqs" same - R >out 2>err <&-
holds "a closed standard input" [ "$? $(cat err)" = "3 reqs: -: read fault" ]
ln -s "$prefix/bin/reqs" linked
holds "a call by a link" [ "$(./linked check R E C)" = "foo-bar 1.19" ]
awk 'BEGIN { printf "foo ; extra == \"x0\""; for (i = 1; i < 50000; i++) printf " and extra == \"x%d\"", i * 7919 % 50000 }' >deep
(ulimit -S -s 8192 && exec "$prefix/bin/reqs" check deep E C x0) >out 2>err </dev/null
holds "a path of 50,000 extras" [ "$? $(wc -c <out)" = "0 0" ]

# The pages have each word of the help.
words_of() {
    "$@" --help | sed -n '/^  /{s/^ *//;s/   *.*//;s/ <.*//;s/, /\n/g;p;}'
}
has_words() {
    local page=$1 word
    shift
    while read -r word; do
        sed 's/\\-/-/g' "$page" | grep -qF -- "$word" || { echo "$page has no $word"; return 1; }
    done < <("$@")
}
# An option as each kind of page spells it, and a command.
spelled() {
    local word
    while read -r word; do
        case $2:$word in
            fish:--*) echo "-l ${word#--}" ;;
            fish:-*) echo "-s ${word#-}" ;;
            man:* | *:-* | *:[a-z]*) echo "$word" ;;
        esac
    done < <(words_of "$1"; words_of "$1" check; words_of "$1" matrix)
}
for it in "${pages[@]}"; do
    kind=${it#share/}
    kind=${kind%%[/-]*}
    spelled "$prefix/bin/reqs" "$kind" >words
    holds "$it is of four words and more" [ "$(wc -l <words)" -ge 4 ]
    holds "$it has all options and commands of the help" has_words "$prefix/$it" cat words
done
sentences() {
    for it in "" check matrix; do
        "$prefix/bin/reqs" ${it:+"$it"} --help | sed -n 's/^Usage: //p; s/^  .*[^ ]   *\([^ ]\)/\1/p; 1p'
    done
}
sentences >words
holds "the help has sentences" [ "$(wc -l <words)" -ge 9 ]
holds "the manual page has all sentences of the help" has_words "$prefix/share/man/man1/reqs.1" cat words
holds "the manual page has the version" grep -qF "reqs $("$prefix/bin/reqs" --version | cut -d ' ' -f 2)" "$prefix/share/man/man1/reqs.1"

# The exit statuses of docs/COMMANDS.md but those of `./reqs` and `./try`, and what the manual page has of them.
statuses() {
    sed -n '/^## Exit statuses/,/^Of several/p' "$top/docs/COMMANDS.md" | grep '^- [0-9]' | grep -vF '`./' | sed 's/^- //; s/`//g'
}
statuses_of_page() {
    sed -n '/^\.SH EXIT STATUS/,/^\.SH SEE ALSO/p' "$1" | sed 's/\\f[BR]//g; s/\\-/-/g' | sed -n '/^\.TP/{n;N;s/\n/: /;p;}'
}
statuses >words
holds "there are exit statuses" [ "$(cut -d: -f1 words | tr '\n' ' ')" = "0 1 2 3 4 " ]
statuses_of_page "$prefix/share/man/man1/reqs.1" >told
holds "the manual page has the exit statuses of the commands' page" cmp -s words told
holds "the manual page names the commands' page" grep -qwF "/usr/share/doc/reqs/COMMANDS.md" <(sed -n '/^\.SH SEE ALSO/,$p' "$prefix/share/man/man1/reqs.1")

# Another program's pages have that one's words.
cat >other <<'END'
#!/bin/sh
case "$*" in
    --help) printf 'Tells\n\nUsage: other <COMMAND>\n\nCommands:\n  look  Looks\n  help  Helps\n\nOptions:\n  -q, --quiet-too <HOW>  No word:\n          at all\n' ;;
    'look --help') printf 'Looks\n\nUsage: other look [PLACE]\n\nArguments:\n  [PLACE]  Where\n\nOptions:\n      --far  Far\n' ;;
    --version) echo 'other 7' ;;
    *) exit 2 ;;
esac
END
chmod +x other
mkdir made
python3 "$top/share/from_help.py" other made
holds "the pages of another program" [ "$(ls made | tr '\n' ' ')" = "_other other.1 other.bash other.fish " ]
printf '%s\n' 'other 7' Tells look Looks -q --quiet-too 'No word: at all' PLACE Where --far Far >words
holds "the manual page of another program" has_words made/other.1 cat words
holds "another program has its own exit statuses" [ "$(grep -cE '^\.SH (EXIT|SEE)' made/other.1)" = 0 ]
printf '%s\n' look -q --quiet-too --far >words
holds "the bash completion of another program" has_words made/other.bash cat words
printf '%s\n' look:Looks -q --quiet-too 'No word\: at all' PLACE Where --far Far >words
holds "the zsh completion of another program" has_words made/_other cat words
printf '%s\n' look Looks '-s q' '-l quiet-too' 'No word: at all' '-l far' Far >words
holds "the fish completion of another program" has_words made/other.fish cat words
holds "zsh takes the word behind an option for its value" grep -qF -- "--quiet-too=[No word\\: at all]:HOW: '" made/_other
holds "zsh takes no word behind an option without a value" grep -qF -- "--far[Far]'" made/_other
holds "fish takes the word behind an option for its value" grep -qxF -- "complete -c other -n __fish_use_subcommand -s q -l quiet-too -x -d 'No word: at all'" made/other.fish
holds "zsh has the values of an option" grep -qF -- ":FORMAT:(text json)'" "$prefix/share/zsh/site-functions/_reqs"
holds "fish has the values of an option" grep -qF -- "-l format -x -a 'text json' " "$prefix/share/fish/vendor_completions.d/reqs.fish"
printf '#!/bin/sh\nexit 1\n' >broken
chmod +x broken
python3 "$top/share/from_help.py" broken made 2>err
holds "no pages of a program without help" [ "$? $(wc -l <err)" = "1 1" ]

# What bash completes.
completed() {
    (
        . "$prefix/share/bash-completion/completions/reqs"
        COMP_WORDS=("$@") COMP_CWORD=$(($# - 1)) COMPREPLY=()
        _reqs
        printf '%s ' "${COMPREPLY[@]}"
    )
}
holds "bash completes a command" [ "$(completed reqs ch)" = "check " ]
holds "bash completes an option" [ "$(completed reqs --v)" = "--version " ]
holds "bash completes a command's option" [ "$(completed reqs check --)" = "--strict --format --help " ]
holds "bash completes an option of matrix" [ "$(completed reqs matrix --l)" = "--limit " ]
holds "bash leaves files to the shell" [ "$(completed reqs check R)" = " " ]
holds "bash has the values of an option" [ "$(completed reqs check --format '')" = "text json " ]
holds "bash completes a value of an option" [ "$(completed reqs normal R --format j)" = "json " ]
holds "bash has the values behind a =" [ "$(completed reqs same --format =)" = "text json " ]
holds "bash completes a value behind a =" [ "$(completed reqs same --format = t)" = "text " ]
holds "bash leaves files to the shell behind a value" [ "$(completed reqs check --format json R)" = " " ]
holds "bash leaves files to the shell behind another option's value" [ "$(completed reqs same --assume x j)" = " " ]
holds "bash has no values of an option without a command" [ "$(completed reqs --format j)" = " " ]

# Once more, and away again.
run "$prefix"
holds "an installation over another" [ "$status" -eq 0 ]
holds "an installation over another leaves nothing else" are_all_there "$prefix"
touch "$prefix/share/man/man1/other.1"
run --remove "$prefix"
holds "a removal" [ "$status $(wc -c <out) $(wc -c <err)" = "0 0 0" ]
holds "a removal leaves the files of others" [ "$(find "$prefix" -type f)" = "$prefix/share/man/man1/other.1" ]
holds "a removal where nothing is" leaves "$prefix" --remove "$prefix"

# The folder of a user.
mkdir home path
printf '#!/bin/sh\necho 1000\n' >path/id
chmod +x path/id
HOME=$work/home PATH=$work/path:$work/home/.local/bin:$PATH "$top/install" >out 2>err </dev/null
holds "an installation for a user" [ "$? $(wc -c <err)" = "0 0" ]
holds "a user's files" are_all_there home/.local
HOME='' PATH=$work/path:$PATH run
holds "no folder of a user" is_refused 2

# Refusals.
run one two
holds "two folders" is_refused 2
run --frobnicate
holds "an unknown option" is_refused 2
run ""
holds "an empty name" is_refused 2
run --remove one two
holds "a removal of two folders" is_refused 2
holds "a refused word makes no folder" [ ! -e one ]
mkdir low
touch low/file
holds "a folder below a file" leaves low low/file/below
run /proc/none
holds "a folder that can't be made" is_refused 1
mkdir -p blocked/share/man/man1/reqs.1
holds "a folder in a file's place" leaves blocked blocked
mkdir -p half/share
touch half/share/fish
holds "a file in a folder's place" leaves half half
mkdir -p foreign/bin
printf '#!/bin/sh\necho other\n' >foreign/bin/reqs
holds "another's program" leaves foreign foreign
holds "a removal of another's program" leaves foreign --remove foreign

finish install
