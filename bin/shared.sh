# What the commands of bin/ have in common; each reads this file first, with its own place in `self`, which is known
# also where it was called through a link. Needs bash.
set -u
# what an exported POSIXLY_CORRECT or SHELLOPTS asks for: there would be no function `times`, no writing to what mktemp
# made, no list of the commands, and no word with an equals sign
set +o posix +o noclobber +o noglob +o keyword
unset CDPATH # or `cd` would look elsewhere, and say where it went
unset TMOUT  # or a list whose next name is long in coming would be taken for one that ends
here=${self%/*}
root=${here%/*}
me=${self##*/}
# who speaks: bin/sheet names the record, too
speaker=$me
lf=$'\n' tab=$'\t'

# stop WORDS: ends with 2, and says why.
stop() {
    echo "$speaker: $1" >&2
    exit 2
}

# wrong: the words are none of the command's.
wrong() {
    usage >&2
    exit 2
}

# whole WORD: whether it is a whole number as the sheet has them, without a sign or a zero before other digits.
whole() {
    case $1 in
    '' | *[!0-9]* | 0?*) return 1 ;;
    esac
}

# --- files by their names

# no_options NAME..: what starts with a minus is no file's name.
no_options() {
    local file
    for file; do
        case $file in
        -*) wrong ;;
        esac
    done
}

# are_there NAME..: ends where one is not there, or is no file. It is asked of all names before anything is opened,
# since a name may stand for a descriptor that is then taken.
are_there() {
    local file
    for file; do
        fault_of "$file"
        [ -z "$fault" ] || stop "$fault"
    done
}

# fault_of NAME: why the file cannot be read goes to `fault`, or nothing.
fault_of() {
    fault=
    if [ ! -e "$1" ]; then
        fault="${1:-''}: no such file"
        # of a list whose lines end in CR LF, where it does not show
        [ "$1" = "${1%$'\r'}" ] || fault="${1%$'\r'}: no such file; a CR stands at the end of the name"
    elif [ -d "$1" ]; then
        fault="$1 is a directory"
    elif [ ! -r "$1" ]; then
        fault="$1: may not be read"
    fi
}

# descriptor_of NAME: the number of the descriptor that it stands for, or nothing, goes to `descriptor`.
descriptor_of() {
    case $1 in
    /dev/stdin) descriptor=0 ;;
    /dev/fd/* | /proc/self/fd/*) descriptor=${1##*/} ;;
    *) descriptor= ;;
    esac
}

# flows NAME: whether it is a pipe, a socket or a terminal, where what one has read is gone for the other.
flows() {
    [ -p "$1" ] || [ -S "$1" ] || { [ -c "$1" ] && [ -t 0 ] <"$1"; }
}

# are_apart NAME..: ends where two names stand for one descriptor, pipe or terminal: neither would get the whole of it;
# and where one stands for a descriptor that is not open, since a later pipe might take its number.
are_apart() {
    local file other number seen=()
    for file; do
        descriptor_of "$file"
        [ -n "$descriptor" ] || flows "$file" || continue
        [ -e "$file" ] || stop "$file: no such file"
        number=$descriptor
        for other in ${seen[@]+"${seen[@]}"}; do
            [ "$file" -ef "$other" ] || continue
            descriptor_of "$other"
            [ -f "$file" ] && [ "$descriptor" != "$number" ] ||
                stop "$other and $file are one input, which can be read only once"
        done
        seen+=("$file")
    done
}

# opens NAME: opens it on a descriptor that nobody has, whose number goes to `opened`.
opens() {
    { command exec {opened}<"$1"; } 2>/dev/null || stop "$1: cannot be opened"
}

# The shell takes a list that breaks off for one that ends. What reads it says so, on a pipe of its own and before it
# ends, so that it is known to who has seen the end: may_break_off, then all_of for the reading, then broke_off.
may_break_off() { exec {broken}<> <(:); }
all_of() { cat 2>/dev/null || printf x >&"$broken"; }
broke_off() { read -r -t 0 -u "$broken"; }

# files_from LIST: the names of the list go to `names`, one a line, from the file of this name, or from standard input
# for a minus. A list has no bound: the names do not stand among the words of a command.
files_from() {
    local file list=$1
    if [ "$1" = - ]; then
        list="standard input"
        [ -e /dev/fd/0 ] || stop "$list is closed"
        opened=0
    else
        are_there "$1"
        opens "$1"
    fi
    may_break_off
    # a zero byte ends a name, too: the shell would leave out what follows it, in a list of find -print0 all other names
    mapfile -t names < <(all_of <&"$opened" | tr '\0' '\n')
    ! broke_off || stop "$list: cannot be read"
    # what the list came through has nothing left for a file
    for file in ${names[@]+"${names[@]}"}; do
        [ ! "$file" -ef "/dev/fd/$opened" ] || [ -f "$file" ] ||
            stop "$list and $file are one input, which can be read only once"
    done
    [ "$opened" = 0 ] || exec {opened}<&-
    [ "${#names[@]}" -gt 0 ] || stop "$list names no file"
}

# is_text NAME: whether it is UTF-8. A program opens no file by another name.
ascii=$'\x01-\x7f' next=$'[\x80-\xbf]'
utf8="^([$ascii]|["$'\xc2-\xdf'"]$next|"$'\xe0[\xa0-\xbf]'"$next|["$'\xe1-\xec\xee\xef'"]$next$next"
utf8+="|"$'\xed[\x80-\x9f]'"$next|"$'\xf0[\x90-\xbf]'"$next$next|["$'\xf1-\xf3'"]$next$next$next"
utf8+="|"$'\xf4[\x80-\x8f]'"$next$next)*\$"
is_text() {
    local LC_ALL=C
    case $1 in
    *[!$ascii]*) [[ $1 =~ $utf8 ]] ;;
    esac
}

# places_spool: where a program may make a temporary file goes to `spool`. A folder whose name is no UTF-8 goes by a
# descriptor.
places_spool() {
    spool=${TMPDIR:-/tmp}
    is_text "$spool" || ! { command exec {opened}<"$spool"; } 2>/dev/null || spool=/dev/fd/$opened
    spool=$spool/chimenickel-$me.XXXXXX
}

# takes_names: asks of all `names` whether they can be read, each by itself. A program opens files by their names; one
# that stands for a descriptor is opened here, before a descriptor is taken for something else, and goes by another
# name, and so does one whose own is no UTF-8. The names to hand over go to `handed`.
takes_names() {
    are_there "${names[@]}"
    are_apart "${names[@]}"
    hands_names "${names[@]}"
}

# hands_names NAME..: the same without the questions.
hands_names() {
    local file
    handed=()
    for file; do
        descriptor_of "$file"
        # a link may lead to standard input, too, which is another in the program
        if [ -n "$descriptor" ] || { [ -L "$file" ] && [ "$file" -ef /dev/fd/0 ]; } || ! is_text "$file"; then
            opens "$file"
            file=/dev/fd/$opened
        fi
        handed+=("$file")
    done
}

# hands_over NAME..: the names as a program takes them, each ended by a 0 byte. One that has ended takes no more, and
# where SIGPIPE is ignored from outside, as in a service, the shell would say so.
hands_over() { printf '%s\0' "$@" 2>/dev/null; }

# --- refusals in words

# meaning NUMBER PLACE: what a refusal means, as the Python module has it (Refusal.MEANINGS); tests/commands compares
# them.
meaning() {
    case $1 in
    1) echo "opening item $2 is outside its range" ;;
    2) echo "the sample at place $2 is outside its range" ;;
    3)
        echo "the timed length, or a sheet's exposure, would pass 10,000,000 ms," \
            "or a comma file's last time 12 digits"
        ;;
    4) echo "there are fewer than two timed samples, or a sheet's exposure is 0" ;;
    5) echo "the campaign has 100,000 records" ;;
    6) echo "the campaign has 64 failures" ;;
    7) echo "$2 places are needed" ;;
    8) echo "the numbers are no state, or no result" ;;
    9) echo "line $2 is malformed" ;;
    10) echo "line $2 of the comma file is malformed or has a wrong time" ;;
    11) echo "the sum would have more than 10,000 failures or 100,000,000 samples" ;;
    12) echo "roll and acceleration have unequal lengths" ;;
    13) echo "there is no such bureau" ;;
    14) echo "the bureau has 16 jobs" ;;
    15) echo "the place is not the bureau's own" ;;
    16) echo "there are more than 4,096 peaks, or k is outside 2 to their number" ;;
    17) echo "the peak at place $2 is 0 or above 1,000,000" ;;
    18) echo "there is no campaign, or there are more than 64" ;;
    19) echo "there are fewer timed samples than peaks in the tail, or more than 100,000,000" ;;
    20) echo "the level is below $2, the last peak of the tail" ;;
    21) echo "the tail has no spread" ;;
    esac
}

# explain WHERE LINE NUMBER CARRIED [MORE]: the sentence of a refusal, on standard error. A line of 0 is none; an item
# without a line came with the command. Places of samples are counted from 0, lines from 1.
explain() {
    local where=$1 place=$2 items
    items=('' 'the step' 'the ramp' 'the level' 'the decorrelation time' 'the standard' 'the level of the acceleration')
    case $3 in
    1)
        place=$4
        [ "$2" != 0 ] || where=${items[$4]}
        ;;
    2) place=$(($2 - 1)) ;;
    20) place=$4 ;;
    esac
    [ "$2" = 0 ] || where="$where, line $2"
    echo "$speaker: ${where:+$where: }refusal $3: $(meaning "$3" "$place")${5-}" >&2
}

# comma_fault FILE LINE STEP [CHANNEL]: where the line of a comma file goes wrong, and what was wanted there, after the
# sentence of refusal 10; nothing where the file is no plain one, whose lines are gone once they are read. It only
# explains: that the line is wrong is the program's answer. Channel 2 is the acceleration, any other the roll.
comma_fault() {
    local LC_ALL=C line rest time degrees unit=degrees due=$((($2 - 1) * $3)) column=1 ended=1
    [ "${4-}" != 2 ] || unit=m/s²
    [ -f "$1" ] || return 0
    # more than a line may have is not looked at; a zero byte, which the shell has not, is as strange as another
    { IFS= read -r line || ended=; } < <({ tail -n "+$2" <"$1" | head -c 200 | tr '\0' '\1'; } 2>/dev/null)
    [ -n "$ended$line" ] || return 0
    rest=$line
    time=${rest%%[!0-9]*}
    column=$((${#time} + 1)) rest=${rest#"$time"}
    if [ "$time" != "$due" ] || [ "${rest:0:1}" != , ]; then
        case $time$rest in
        $'\xef\xbb\xbf'*) echo ": column 1 has a byte order mark" ;;
        '' | $'\r') echo ": the line is empty" ;;
        [A-Za-z\"\#]*) echo ": column 1: the time $due was wanted, and this looks like a header" ;;
        "${time:-none}".*,*)
            echo ": column $column: a comma was wanted; times are whole ms, and this looks like seconds"
            ;;
        *) [ "$time" = "$due" ] && echo ": column $column: a comma was wanted" ||
            echo ": column 1: the time $due was wanted" ;;
        esac
        return
    fi
    rest=${rest#,} column=$((column + 1))
    [ "${rest:0:1}" != - ] || rest=${rest#-} column=$((column + 1))
    degrees=${rest%%[!0-9]*}
    case $degrees in
    '' | 0?* | ?????????????*)
        echo ": column $column: $unit of 1 to 12 digits were wanted, without a zero before others"
        return
        ;;
    esac
    rest=${rest#"$degrees"} column=$((column + ${#degrees}))
    if [ "${rest:0:1}" = . ]; then
        rest=${rest#.} column=$((column + 1))
        degrees=${rest%%[!0-9]*}
        if [ "${#degrees}" -lt 1 ] || [ "${#degrees}" -gt 3 ]; then
            [ "${#degrees}" -lt 1 ] || column=$((column + 3))
            echo ": column $column: one to three decimals were wanted"
            return
        fi
        rest=${rest#"$degrees"} column=$((column + ${#degrees}))
    fi
    case $rest in
    $'\r'*) rest="a CR stands before it" ;;
    ,*) rest="a second comma stands there" ;;
    [eE]*) rest="an exponent stands there" ;;
    '') rest="the file ends there" ;;
    *) rest="another byte stands there" ;;
    esac
    echo ": column $column: LF was wanted, and $rest"
}

# After the sentence of a malformed line that is itself a refused line.
handed_on="; it is the line by which another command refused, and no line of a sheet"

# --- what is proved and built

# needs_kit: ends where there is no Rattle kit; else `kit` is its folder.
needs_kit() {
    local rt
    rt=$(command -v rt) || stop "the Rattle kit is not there (no command rt)"
    rt=$(readlink -f -- "$rt")
    kit=${rt%/bin/*}
}

# newer_than FILE PATH..: whether a source at or below the paths is newer than the file. What rt keeps in out/ is none.
newer_than() {
    [ -n "$(find "${@:2}" -name out -prune -o -newer "$1" -type f -print -quit)" ]
}

# lock_builds: waits until nobody else proves or builds in this tree. What is started from here does so under the same
# lock.
lock_builds() {
    [ -z "${CHIMENICKEL_BUILDS-}" ] || return 0
    mkdir -p "$root/target/log" || stop "cannot write to $root/target"
    { command exec {builds}>"$root/target/build.lock"; } 2>/dev/null || stop "cannot write to $root/target"
    if ! flock -n "$builds"; then
        echo "$me: waiting for another command that proves and builds here" >&2
        flock "$builds"
    fi
    export CHIMENICKEL_BUILDS=1
}

unlock_builds() {
    exec {builds}>&-
    unset CHIMENICKEL_BUILDS
}

# is_built NAME: whether the program stands as the sources have it. rt leaves it in the crate's out/.
is_built() {
    local program=$root/crates/$1/out/$1
    [ -x "$program" ] && ! newer_than "$program" "$root/crates" "$root/crates.txt"
}

# makes NAME LOG: proves the program and builds it; what the prover says goes to the file LOG. rt builds one only to run
# it, which on no arguments and no input ends at once, and takes its stamp away where it is not proved.
makes() {
    local made=$root/crates/$1/out/$1 since
    since=$(date +%s.%N)
    (cd -- "$root/crates/$1" && rt run) </dev/null >"$2" 2>&1
    [ -x "$made" ] && [ -e "$made.stamp" ] || return
    # where only times have changed rt builds nothing; and what is saved meanwhile is newer
    touch -d "@$since" "$made"
}

# build NAME WAIT: proves and builds the program, unless another has done so while this one waited.
build() {
    local log=$root/target/log/$1.build
    lock_builds
    if ! is_built "$1"; then
        echo "$speaker: proving and building what it stands on, which takes about $2 ($log)" >&2
        if ! makes "$1" "$log"; then
            cat "$log" >&2
            stop "it is not proved"
        fi
    fi
    unlock_builds
}

# finds NAME WAIT: the program to start goes to `program`. Installed, it stands beside the commands; in the source tree
# it is proved and built first.
finds() {
    if [ ! -e "$root/crates.txt" ]; then
        program=$here/$1
        [ -x "$program" ] || stop "$program is not there: it was not installed whole"
        return
    fi
    needs_kit
    is_built "$1" || build "$1" "$2"
    program=$root/crates/$1/out/$1
}

# opens_again: whether descriptor 4, where there is one, can be opened once more by its name. A socket cannot, and a
# named pipe that may only be read would be waited for where its writer is gone.
opens_again() {
    [ ! -e /dev/fd/4 ] || { [ ! -S /dev/fd/4 ] && [ -r /dev/fd/4 ] && { [ ! -p /dev/fd/4 ] || [ -w /dev/fd/4 ]; }; }
}

# run NAME WAIT [ARGUMENT..]: runs the program NAME of crates/ with the arguments, from standard input to standard
# output, once it is proved and built. A program of the kit has no exit status. It says how it ended by a digit on
# descriptor 3, which goes to `status`: 0 done, 1 refused, 2 something could not be read or written. Before a 1 stand
# what the refusal carries or nothing, for `carried`, and the refused line, for `refused`. What it writes goes straight
# to standard output, so nothing on the way holds it back. Descriptor 4 is handed on for a second file or for a list of
# names, each ended by a 0 byte. A program opens it once more by its name: what it could not open so, or would wait for,
# comes through a pipe.
run() {
    local program out end second='' IFS
    finds "$1" "$2"
    shift 2
    # with nobody to read the answer a write fails, and the program says why; else it would be ended without a word
    trap '' PIPE
    # and a descriptor that is closed would be taken by the pipe from the program itself
    [ -e /dev/fd/0 ] || stop "standard input is closed"
    { command exec {out}>&1; } 2>/dev/null || stop "standard output is closed"
    if ! opens_again; then
        exec {second}<> <(:)
        exec 4< <(cat <&4 2>/dev/null || printf x >&"$second")
    fi
    end=$("$program" "$@" 3>&1 >&"$out" {out}>&-)
    exec {out}>&-
    status=${end##*"$lf"}
    # where all was read that there was, and there was not all
    [ -z "$second" ] || [ "$status" != 0 ] || ! read -r -t 0 -u "$second" || stop "descriptor 4 cannot be read"
    case $status in
    [02]) ;;
    1)
        carried=${end%%"$lf"*} end=${end#*"$lf"}
        IFS=$tab
        refused=(${end%%"$lf"*})
        # most programs leave it to the refused line, whose last field after 1 is the item
        carried=${carried:-${refused[-1]}}
        ;;
    *) stop "it was ended from outside" ;;
    esac
}
