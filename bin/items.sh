# The items of a record and the standard, as words of a command: whole numbers as document 01 has them, or with a unit,
# and then exact or refused. A command that takes items reads this file after shared.sh. Needs bash.

# What an item is called, its unit without one, and each unit with how many of those it has.
declare -A item_words=(
    [step]="the step" [ramp]="the ramp" [level]="the level" [decorrelation]="the decorrelation time"
    [standard]="the standard" [acceleration-level]="the level of the acceleration"
)
declare -A item_plain=(
    [step]="ms" [ramp]="samples" [level]="thousandths of a degree" [decorrelation]="ms"
    [standard]="ms" [acceleration-level]="mm/s²"
)
declare -A item_units=(
    [step]="ms:1 s:1000" [ramp]="ms:1 s:1000 min:60000" [level]="deg:1000"
    [decorrelation]="ms:1 s:1000 min:60000" [standard]="ms:1 s:1000 min:60000 h:3600000"
    [acceleration-level]="mm/s2:1 m/s2:1000"
)

# times NUMBER FACTOR: a decimal number times a whole one goes to `value`; fails where it is none or the product is not
# whole. At most 12 digits, so that the product has at most 19.
times() {
    local digits=${1/./} decimals='' scale=1
    whole "${1%%.*}" || return
    case $1 in
    *.*) decimals=${1#*.} ;;
    esac
    case $1:$decimals in
    *.: | *[!0-9.:]* | *.*.*:*) return 1 ;;
    esac
    [ "${#digits}" -le 12 ] || return
    while [ -n "$decimals" ]; do
        scale=$((scale * 10)) decimals=${decimals#?}
    done
    value=$((10#$digits * $2))
    [ $((value % scale)) -eq 0 ] || return
    value=$((value / scale))
}

# in_units ITEM WORD: the number that the word stands for goes to `value`, and whether it has a unit to `unit`. A ramp
# with a unit is a time, of which steps are counted once the step is known.
in_units() {
    local number=${2%%[!0-9.]*} pair units
    unit=${2#"$number"}
    [ -n "$number" ] || wrong
    if [ -z "$unit" ]; then
        whole "$2" || wrong
        value=$2
        return
    fi
    # a unit is a word of letters, as deg or m/s2; anything else is a number wrongly typed
    case ${unit%2} in
    '' | *[!a-z/]*) wrong ;;
    esac
    for pair in ${item_units[$1]}; do
        [ "${pair%%:*}" = "$unit" ] || continue
        times "$number" "${pair#*:}" || stop "--$1 $2 is no whole number of ${item_plain[$1]/samples/ms}"
        return
    done
    units=
    for pair in ${item_units[$1]}; do units="$units ${pair%%:*}"; done
    stop "--$1 $2: ${item_words[$1]} is a whole number of ${item_plain[$1]}, or has a unit:$units"
}

# takes_items NAMES WORD..: the leading options among the names go to `item` by their names, the words after them to
# `words`. A name with a colon is no item and takes any word. --verbose is one of every command's.
takes_items() {
    local names=" $1 "
    shift
    declare -gA item=()
    verbose='' ramp_unit='' ramp_word=''
    while [ $# -ge 1 ]; do
        if [ "$1" = --verbose ]; then
            verbose=1
            shift
            continue
        fi
        [ $# -ge 2 ] && [ "$1" != "${1#--}" ] || break
        case $names in
        *" ${1#--}: "*)
            [ -n "$2" ] || wrong
            value=$2
            ;;
        *" ${1#--} "*)
            in_units "${1#--}" "$2"
            [ "$1" != --ramp ] || ramp_unit=$unit ramp_word=$2
            ;;
        *) break ;;
        esac
        item[${1#--}]=$value
        shift 2
    done
    words=("$@")
    ramp_in_steps
}

# ramp_in_steps: a ramp that was given as a time in steps, once the step is known.
ramp_in_steps() {
    # a step of more digits is refused, and the ramp with it
    [ -n "$ramp_unit" ] && [[ ${item[step]-} =~ ^[1-9][0-9]{0,11}$ ]] || return 0
    [ $((item[ramp] % item[step])) -eq 0 ] || stop "--ramp $ramp_word is no whole number of steps of ${item[step]} ms"
    item[ramp]=$((item[ramp] / item[step])) ramp_unit=
}

# asks_for NAME..: the options that a command cannot do without.
asks_for() {
    local name
    for name; do
        [ -n "${item[$name]-}" ] || wrong
    done
}

# thousandths NUMBER: with a point before its last three digits.
thousandths() {
    local digits
    printf -v digits %04d "$1"
    printf '%s.%s' "${digits%???}" "${digits: -3}"
}

# says_items NAME..: the items in words on standard error, where it is a terminal or --verbose asks for it: a level of
# 40 that was meant in degrees is 0.040 degrees there.
says_items() {
    local name said=''
    [ -n "$verbose" ] || [ -t 2 ] || return 0
    for name; do
        # a number that no item has is refused, and needs no words
        [ -n "${item[$name]-}" ] && [ "${#item[$name]}" -le 12 ] || continue
        # a time that is in no steps yet, as with a step of 0, is no number of samples
        [ "$name" != ramp ] || [ -z "$ramp_unit" ] || continue
        said="$said${said:+, }${item_words[$name]#the } "
        case $name in
        step) said+="${item[step]} ms" ;;
        ramp)
            said+="${item[ramp]} samples"
            [ "${#item[ramp]}" -gt 9 ] || [ "${#item[step]}" -gt 9 ] ||
                said+=" ($(thousandths $((item[ramp] * item[step]))) s)"
            ;;
        level) said+="$(thousandths "${item[level]}") degrees" ;;
        acceleration-level) said+="$(thousandths "${item[acceleration-level]}") m/s²" ;;
        decorrelation) said+="$(thousandths "${item[decorrelation]}") s" ;;
        standard) said+="one failure in $(thousandths "${item[standard]}") s" ;;
        esac
    done
    echo "$speaker: $said" >&2
}

# --- the items of a campaign, kept in a file from day to day: one a line, its name and its number, parted by a tab

kept_names=(step ramp level acceleration-level decorrelation)

# reads_items FILE: what the file has goes to `kept` by name. A line that is no item, one twice, or one that is missing
# ends it: a file that was damaged says nothing.
reads_items() {
    local lines=() line name number=0
    declare -gA kept=()
    [ -f "$1" ] || stop "$1 is no plain file"
    [ -r "$1" ] || stop "$1: may not be read"
    # more than six lines of items can have is not looked at
    mapfile -t lines < <(head -c 1000 <"$1" | tr '\0' ' ')
    for line in ${lines[@]+"${lines[@]}"}; do
        number=$((number + 1)) name=${line%%"$tab"*}
        case " ${kept_names[*]} " in
        *" ${name:-no name} "*) ;;
        *) stop "$1, line $number: no item of a campaign" ;;
        esac
        whole "${line#*"$tab"}" && [ "${#line}" -lt 40 ] || stop "$1, line $number: no number of ${item_words[$name]}"
        [ -z "${kept[$name]-}" ] || stop "$1, line $number: ${item_words[$name]} a second time"
        kept[$name]=${line#*"$tab"}
    done
    for name in step ramp level decorrelation; do
        [ -n "${kept[$name]-}" ] || stop "$1 has no line for ${item_words[$name]}"
    done
}

# holds_items FILE: an item that was not given is the file's; one that was given and is another there ends it.
holds_items() {
    local name
    reads_items "$1"
    [ -n "${item[step]-}" ] || item[step]=${kept[step]}
    ramp_in_steps
    for name in "${kept_names[@]}"; do
        [ -n "${item[$name]-}" ] || item[$name]=${kept[$name]-}
        [ "${item[$name]}" = "${kept[$name]-}" ] ||
            stop "${item_words[$name]} is ${kept[$name]:-not there} in $1, and ${item[$name]} was given"
    done
}

# may_keep_items FILE: whether the file can be written at the end, asked before anything is read.
may_keep_items() {
    local folder=.
    case $1 in
    */*) folder=${1%/*}/ ;;
    esac
    [ -d "$folder" ] || stop "$1: no such directory"
    [ -w "$folder" ] || stop "$1: its directory may not be written"
}

# keeps_items FILE: writes the items to the file, whole or not at all: beside it first, then under its name where nobody
# else has it by now. Where somebody has, it is held to that.
keeps_items() (
    text=
    for name in "${kept_names[@]}"; do
        [ -z "${item[$name]-}" ] || text+=$name$tab${item[$name]}$lf
    done
    draft=$(mktemp -- "$1.XXXXXX") || exit 2
    trap 'rm -f -- "$draft"' EXIT
    trap 'exit 2' INT TERM HUP
    { printf %s "$text" >"$draft"; } 2>/dev/null || stop "$1: cannot be written, and the items are not kept"
    chmod -- "$(printf %o $((0666 & ~$(umask))))" "$draft"
    ln -- "$draft" "$1" 2>/dev/null && exit
    [ -e "$1" ] || mv -n -- "$draft" "$1" 2>/dev/null || stop "$1: cannot be written, and the items are not kept"
    holds_items "$1"
)
