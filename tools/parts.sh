# Shared by the commands that run for long; source it. A command calls `begin`, then `part` for each
# of its parts, then `try` for each test. This file prints the number of the part that runs, each
# crate when it is proved, and about how long the rest takes. It writes all output to a file, and
# prints the file's name at the start and in the summary. The summary comes last, also after an
# interrupt: the failures, the first five with the end of their output, and 'N passed, M failed'.
# The exit status is 0 only if nothing failed.
# shellcheck shell=bash

# The repository whose crates are proved.
repository=$(cd "$(dirname "${BASH_SOURCE[0]}")/.." && pwd)
passed=0
failed=0
# The names of the failures, and the end of the output of each.
failures=()
ends=()
# The greatest number of failures whose output the summary shows.
most_ends=5
# The command that `try` runs: its name, its process group, and the last line of its output.
trying=
job=
last=
# The shares of all parts, the number of the part that runs, its share, the sum of its share and the
# later ones, and the sum of all. A share is the approximate time of a part on four processors, in
# seconds.
shares=()
number=0
share=0
left=0
all=0
# The approximate time of the first proof of a crate, in seconds.
seconds_a_crate=50
# The number of crates that the running part needs, how many of them are done, and how many were
# done when it began.
crates_all=0
crates_done=0
crates_before=0

# With -h or --help, prints the comment at the top of the command and exits.
for word in "$@"; do
    case $word in
    -h | --help)
        sed -n '2,/^[^#]/ s/^# \{0,1\}//p' "$0"
        exit 0
        ;;
    esac
done

# Prints its arguments as a line, and writes it to the log. Within another such command, that one
# writes the log. On a full disk it still prints the line.
say() {
    [ -n "${PARTS_LOG:-}" ] || printf '%s\n' "$*" 2>/dev/null >>"$log" || true
    printf '%s\n' "$*"
}

# Begins a run of parts with the shares after $1. Their output goes to the file $1, or to the file
# PARTS_LOG if another such command passes it.
begin() {
    log=${PARTS_LOG:-$1}
    shares=("${@:2}")
    for share in "${shares[@]}"; do
        all=$((all + share))
    done
    share=0
    left=$all
    trap finish EXIT
    trap 'interrupted 129' HUP
    trap 'interrupted 130' INT
    trap 'interrupted 143' TERM
    [ -z "${PARTS_LOG:-}" ] || return 0
    mkdir -p "$(dirname "$log")"
    : >"$log"
    say "all output is kept in ${log#"$PWD"/}"
}

# Exits at once if `rt` is missing.
need_rt() {
    command -v rt >/dev/null && return
    echo "rt isn't on the PATH: it comes with Rattle's kit (README.md, 'What is trusted')" >&2
    echo "0 passed, 1 failed"
    exit 1
}

# Prints a number of seconds in words.
about() {
    local minutes=$((($1 + 59) / 60))
    # An estimate of a long time isn't exact to the minute.
    [ "$minutes" -le 20 ] || minutes=$(((minutes + 4) / 5 * 5))
    if [ "$1" -lt 45 ]; then
        echo "less than a minute"
    elif [ "$minutes" -eq 1 ]; then
        echo "about a minute"
    else
        echo "about $minutes minutes"
    fi
}

# Prints about how long the rest takes: the shares that are left, at the pace so far. The pace
# starts as if shares of 900 seconds had taken that time. After the last crate a tenth of the
# part is left, for tests, edits and programs.
rest() {
    local rest=$left proves=$((crates_all - crates_before))
    [ "$proves" -eq 0 ] ||
        rest=$((left - share * (crates_done - crates_before) * 9 / (10 * proves)))
    about $((rest * (SECONDS + 900) / (all - rest + 900)))
}

# Begins the next part, $1. It needs $2 crates, and $3 of them are built already.
part() {
    left=$((left - share))
    share=${shares[number]}
    number=$((number + 1))
    crates_all=${2:-0}
    crates_before=${3:-0}
    crates_done=$crates_before
    say "part $number of ${#shares[@]}: $1, $(about "$share") on four processors;" \
        "$(rest) left in all"
}

# Prints each of these crates and of those that they use, in the order in which rt builds them.
lowest_first() {
    local -A found=()
    add_crates "$@"
}

add_crates() {
    local name
    for name in "$@"; do
        [ -d "$repository/crates/$name" ] || continue
        [ -z "${found[$name]:-}" ] || continue
        found[$name]=yes
        # shellcheck disable=SC2046
        add_crates $(sed -n "s/^$name\( staticlib\)\{0,1\}://p" "$repository/crates.txt")
        echo "$name"
    done
}

# Prints how many of these crates rt has built before. It builds one again if its sources changed.
built() {
    local name count=0
    for name in "$@"; do
        [ ! -f "$repository/crates/$name/out/rlib/stamp" ] || count=$((count + 1))
    done
    echo "$count"
}

# Prints the share of building these crates.
share_of() {
    local crates
    mapfile -t crates < <(lowest_first "$@")
    echo $(((${#crates[@]} - $(built "${crates[@]}")) * seconds_a_crate))
}

# Prints the share of bindings/build for $1 levels: each level after the first one proves the crates
# with C functions again.
share_of_build() {
    local crates
    mapfile -t crates < <(sed -n 's/ staticlib:.*//p' "$repository/crates.txt")
    echo $(($(share_of "${crates[@]}") + ($1 - 1) * ${#crates[@]} * seconds_a_crate))
}

# Prints that the crate $1 was $2, and counts it the first time.
show_crate() {
    local of="crate"
    [ -n "${seen[$1]:-}" ] || [ "$crates_done" -ge "$crates_all" ] ||
        crates_done=$((crates_done + 1))
    seen[$1]=yes
    [ "$crates_all" -eq 0 ] || of="crate $crates_done of $crates_all"
    say "  $of: $1 $2; $(rest) left in all"
}

# Writes the lines of standard input to the log, and prints those that report progress. These are
# lines of `rt ci`, which names a crate after its proof, of `rt lib` and similar commands, which
# name it before, of commands like this one, of bindings/diff, of the benchmarks, and of
# tools/check-program about cases that it leaves out.
progress() {
    local line name=
    local -A seen=()
    trap : TERM
    while IFS= read -r line || [ -n "$line" ]; do
        printf '%s\n' "$line" >&3
        case $line in
        'rt: chose --jobs '*' for '*) name=${line##* } ;;
        'logic=proved '*) [ -z "$name" ] || show_crate "$name" proved; name= ;;
        'rt: '*': its tests are '* | 'rt: '*': another copy '*) say "  ${line#rt: }" ;;
        'rt: '*': begins with what a check kept '*)
            line=${line#rt: } && show_crate "${line%%: *}" "begins with work of another clone"
            ;;
        'rt: '*' NOT PROVED'*) line=${line#rt: } && show_crate "${line%% *}" "${line#* }" ;;
        'rt: '*' proved') line=${line#rt: } && show_crate "${line%% *}" proved ;;
        'rt: '*' is kept: '*) line=${line#rt: } && show_crate "${line%% *}" "was proved before" ;;
        'rt: '*': trying its must-fail edits '*) say "  ${line#rt: }" ;;
        '  crate '* | '  measures '* | 'part '*' of '*': '* | *' cases agree') echo "  $line" ;;
        'not compared: '*) echo "  $line" ;;
        esac
    done 3>>"$log"
}

# Prints the end of a command's output $1, and why its last crate isn't proved.
end_of() {
    local output
    output=$(grep -v ' left in all$' <<<"$1" || true)
    head -n -12 <<<"$output" | grep -B 12 ' NOT PROVED$' | tail -n 13 && echo ... || true
    tail -n 12 <<<"$output"
}

# Runs the command after the name $1, and counts its result: N and M if the last line of its output
# is 'N passed, M failed', else one.
try() {
    local start status=0 output good=1 bad=0
    trying=$1
    shift
    echo "== $trying" >>"$log"
    start=$(($(wc -c <"$log") + 1))
    # A job has its own process group, so that an interrupt reaches all of it. Its output up to then
    # is in the log.
    set -m
    { trap : TERM && "$@" 2>&1 | progress; } </dev/null &
    job=$!
    set +m
    wait "$job" || status=$?
    job=
    output=$(tail -c "+$start" "$log")
    last=${output##*$'\n'}
    if [[ $last =~ ^([0-9]+)\ passed,\ ([0-9]+)\ failed$ ]]; then
        good=${BASH_REMATCH[1]} bad=${BASH_REMATCH[2]}
    elif [ "$status" -ne 0 ]; then
        good=0
    fi
    [ "$status" -eq 0 ] || [ "$bad" -gt 0 ] || bad=1
    passed=$((passed + good))
    if [ "$bad" -eq 0 ]; then
        say "ok      $trying"
    else
        fail "$bad" "$(end_of "$output")"
    fi
    trying=
}

# Runs the command as `try` does, and exits if it or an earlier one failed.
must() {
    try "$@"
    [ "$failed" -eq 0 ] || exit 1
}

# Counts $1 failures of the running test, and keeps the end $2 of its output.
fail() {
    failed=$((failed + $1))
    failures+=("${trying:-$0}")
    ends+=("$2")
    say "failed  ${trying:-$0}"
}

# Ends the running job, and exits with the status $1. A second interrupt kills the job.
interrupted() {
    trap 'kill -KILL -- "-$job" || true' HUP INT TERM
    if [ -n "$job" ]; then
        kill -TERM -- "-$job" || true
        wait "$job" || wait "$job" || true
    fi 2>/dev/null
    trap '' HUP INT TERM
    fail 1 "interrupted"
    exit "$1"
}

# Prints the summary, however the command ends.
finish() {
    local status=$? k
    trap - EXIT
    [ "$status" -eq 0 ] || [ "$failed" -gt 0 ] || fail 1 "ended with status $status"
    for k in "${!failures[@]}"; do
        say "failed: ${failures[k]}"
        # shellcheck disable=SC2001
        [ "$k" -ge "$most_ends" ] || say "$(sed 's/^/    /' <<<"${ends[k]}")"
    done
    [ -n "${PARTS_LOG:-}" ] || say "all output is in ${log#"$PWD"/}"
    say "$passed passed, $failed failed"
    [ "$status" -ne 0 ] || [ "$failed" -eq 0 ] || status=1
    exit "$status"
}
