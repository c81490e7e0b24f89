# Completion of epx for bash, which tools/docs manual writes.

# Offers those of these words that begin as the word at the cursor does, and no files.
_epx_offer() {
    compopt +o default +o bashdefault
    mapfile -t COMPREPLY < <(compgen -W "$1" -- "${COMP_WORDS[COMP_CWORD]}")
}

# Offers subcommands: all of them where none begins as a misspelt word does.
_epx_offer_commands() {
    local commands="run order levels blockers graph resume audit check verify linear replay compare why trace follow help"
    _epx_offer "$commands"
    [ "${#COMPREPLY[@]}" -gt 0 ] || read -ra COMPREPLY <<<"$commands"
}

_epx() {
    local cursor=${COMP_WORDS[COMP_CWORD]} options firsts word is_value="" is_ended=""
    case "$COMP_CWORD ${COMP_WORDS[1]}" in
        "1 -"*) _epx_offer "--help --version"; return ;;
        "1 "* | "2 help") _epx_offer_commands; return ;;
    esac
    # the options of the subcommand, and how many names that are no paths come first
    case ${COMP_WORDS[1]} in
        run|order|levels|blockers|resume|verify|compare) options=" --workers --cut --explain --quiet --exit-code --help " firsts=0 ;;
        graph) options=" --workers --cut --explain --quiet --around --steps --help " firsts=0 ;;
        audit) options=" --workers --cut --explain --quiet --exit-code --all --help " firsts=0 ;;
        check) options=" --workers --cut --explain --quiet --exit-code --prefix --help " firsts=0 ;;
        linear) options=" --workers --cut --explain --quiet --exit-code --skew --help " firsts=0 ;;
        replay) options=" --workers --cut --explain --quiet --help " firsts=0 ;;
        why) options=" --workers --cut --explain --quiet --reaches --help " firsts=1 ;;
        trace) options=" --workers --cut --explain --quiet --reads --help " firsts=1 ;;
        follow) options=" --workers --cut --explain --quiet --each --state --save --help " firsts=0 ;;
        *) _epx_offer ""; return ;;
    esac
    for word in "${COMP_WORDS[@]:2:COMP_CWORD-2}"; do
        if [ -n "$is_value" ]; then
            # bash takes --workers=4 for three words
            [ "$word" = "=" ] || is_value=""
        elif [ -z "$is_ended" ] && [[ $word == -?* ]]; then
            options=${options/ "$word" / }
            case $word in --) is_ended=1 ;; --workers | --cut | --around | --steps | --skew | --reaches | --state | --save) is_value=$word ;; esac
        else
            firsts=$((firsts - 1))
        fi
    done
    case $is_value in --state | --save) return ;; esac
    if [ -n "$is_value" ]; then
        _epx_offer ""
    elif [ -z "$is_ended" ] && [[ $cursor == -* ]]; then
        _epx_offer "$options"
    elif [ "$firsts" -gt 0 ]; then
        _epx_offer ""
    fi
}

# Where a path is, nothing is offered above, and bash completes it as it does for other commands.
complete -o bashdefault -o default -F _epx epx
