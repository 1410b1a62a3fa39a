# Completion of the words of xcf by bash: source this file, or put it as `xcf`
# into a folder that bash-completion reads.

# Fills COMPREPLY with the words of a list that begin as the word typed so far.
_xcf_words() {
    mapfile -t COMPREPLY < <(compgen -W "$1" -- "$2")
}

# Fills COMPREPLY with folders and with files that end so; with all files where
# there are none of these.
_xcf_files() {
    local ending=$1 typed=$2
    compopt -o filenames 2>/dev/null
    mapfile -t COMPREPLY < <(compgen -f -X "!*.$ending" -- "$typed"; compgen -d -- "$typed")
    [[ ${#COMPREPLY[@]} -gt 0 ]] || mapfile -t COMPREPLY < <(compgen -f -- "$typed")
}

# Fills COMPREPLY with the rows that the command lists of a file. The path is as
# typed: quotes and backslashes are taken off it, and nothing in it is run.
_xcf_rows() {
    local command=$1 typed=$2 path rows
    path=$(xargs printf '%s' <<<"${3/#\~\//$HOME/}" 2>/dev/null) || return
    rows=$("$command" list -- "$path" 2>/dev/null </dev/null | sed -n 's/^\([0-9][0-9]*\) .*/\1/p')
    _xcf_words "$rows" "$typed"
}

# How many words follow an option.
_xcf_values() {
    case $1 in
    --layer | --mask | --channel) echo 2 ;;
    --canvas | --base | --opacity | --offset | --mode | --marks) echo 1 ;;
    *) echo 0 ;;
    esac
}

# Sorts the words between the command and the one typed now: `places` are those
# that are no options or their values; `option` is the option whose value is
# typed now, and `value` which of its values. Once -- was typed, `ended` is set.
_xcf_sort() {
    local word left=0
    places=() option='' value=0 ended=''
    for word in "${COMP_WORDS[@]:2:COMP_CWORD-2}"; do
        if [[ $left -gt 0 ]]; then
            left=$((left - 1)) value=$((value + 1))
        elif [[ -z $ended && $word == -- ]]; then
            ended=1
        elif [[ -z $ended && $word == -?* ]]; then
            option=$word value=1 left=$(_xcf_values "$word")
        else
            places+=("$word")
        fi
    done
    [[ $left -gt 0 ]] || option=''
}

# The value of an option of xcf pack: only files and bases can be told.
_xcf_value() {
    case $option$value in
    --base1) _xcf_words 'rgb grey' "$1" ;;
    --layer2 | --mask2 | --channel2) _xcf_files pam "$1" ;;
    esac
}

_xcf_options() {
    case $1 in
    extract) echo --no-marks --force --help ;;
    pack)
        echo --force --canvas --base --layer --mask --channel --opacity --offset --mode --hidden --visible \
            --active --selection --unapplied --mark-band --no-mark-band --marks --help
        ;;
    list | show | check) echo --help ;;
    esac
}

# The word in the next place of a command.
_xcf_place() {
    local command=$1 typed=$2
    case ${COMP_WORDS[1]}${#places[@]} in
    list* | check* | show0 | extract0 | pack0) _xcf_files xcf "$typed" ;;
    extract1) _xcf_rows "$command" "$typed" "${places[0]}" ;;
    extract2) _xcf_files pam "$typed" ;;
    help0) _xcf_words 'list show check extract pack' "$typed" ;;
    esac
}

# Called by bash with the command, the word typed now and the one before it.
_xcf() {
    local typed=$2 places option value ended
    COMPREPLY=()
    if [[ $COMP_CWORD -eq 1 ]]; then
        _xcf_words 'list show check extract pack help --help --version' "$typed"
        return
    fi
    _xcf_sort
    if [[ -n $option ]]; then
        _xcf_value "$typed"
    elif [[ -z $ended && $typed == -* ]]; then
        _xcf_words "$(_xcf_options "${COMP_WORDS[1]}")" "$typed"
    else
        _xcf_place "$1" "$typed"
    fi
}

complete -F _xcf xcf
