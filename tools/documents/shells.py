"""The completions of bash, zsh and fish, made of the words of the help. A path is completed by the
names of files, an option by those that its subcommand has, and a number, an instance or a key by
nothing."""

from documents.help_of_epx import PATHS, subcommands, top_options

BASH = """\
# Completion of epx for bash, which tools/docs manual writes.

# Offers those of these words that begin as the word at the cursor does, and no files.
_epx_offer() {
    compopt +o default +o bashdefault
    mapfile -t COMPREPLY < <(compgen -W "$1" -- "${COMP_WORDS[COMP_CWORD]}")
}

# Offers subcommands: all of them where none begins as a misspelt word does.
_epx_offer_commands() {
    local commands="%(commands)s"
    _epx_offer "$commands"
    [ "${#COMPREPLY[@]}" -gt 0 ] || read -ra COMPREPLY <<<"$commands"
}

_epx() {
    local cursor=${COMP_WORDS[COMP_CWORD]} options firsts word is_value="" is_ended=""
    case "$COMP_CWORD ${COMP_WORDS[1]}" in
        "1 -"*) _epx_offer "%(top)s"; return ;;
        "1 "* | "2 help") _epx_offer_commands; return ;;
    esac
    # the options of the subcommand, and how many names that are no paths come first
    case ${COMP_WORDS[1]} in
%(cases)s
        *) _epx_offer ""; return ;;
    esac
    for word in "${COMP_WORDS[@]:2:COMP_CWORD-2}"; do
        if [ -n "$is_value" ]; then
            # bash takes --workers=4 for three words
            [ "$word" = "=" ] || is_value=""
        elif [ -z "$is_ended" ] && [[ $word == -?* ]]; then
            options=${options/ "$word" / }
            case $word in --) is_ended=1 ;; %(valued)s) is_value=$word ;; esac
        else
            firsts=$((firsts - 1))
        fi
    done
    case $is_value in %(paths)s) return ;; esac
    if [ -n "$is_value" ]; then
        _epx_offer ""
    elif [ -z "$is_ended" ] && [[ $cursor == -* ]]; then
        _epx_offer "$options"
    elif [ "$firsts" -gt 0 ]; then
        _epx_offer ""
    fi
}

# Where a path is, nothing is offered above, and bash completes it as it does for other commands.
complete -o bashdefault -o default -F _epx epx
"""

ZSH = """\
#compdef epx
# Completion of epx for zsh, which tools/docs manual writes.

# Offers subcommands: where none begins as a misspelt word does, all are listed and the word stays.
_epx_commands() {
    local -a commands=(
%(rows)s
    )
    _describe -t commands command commands && return
    compadd -U -- ${commands%%%%:*}
    compstate[insert]= compstate[list]=list
}

# Says what is to be at the cursor, and offers nothing.
_epx_say() {
    [[ $PREFIX == -* ]] || _message $1
}

# Offers paths. Before -- no path begins with a hyphen.
_epx_files() {
    [[ $PREFIX == -* && ${words[1,CURRENT-1][(I)--]} -eq 0 ]] || _files
}

_epx() {
    if (( CURRENT == 2 )); then
        case $PREFIX in
            -*) _arguments %(top)s ;;
            *) _epx_commands ;;
        esac
        return
    fi
    shift words
    (( CURRENT-- ))
    local -a options=(
%(options)s
    )
    case $words[1] in
%(cases)s
        help) (( CURRENT == 2 )) && _epx_commands ;;
    esac
}

_epx "$@"
"""

FISH = """\
# Completion of epx for fish, which tools/docs manual writes.

# Whether the subcommand before the cursor is one of these.
function __epx_in
    set -l words (commandline -opc)
    contains -- "$words[2]" $argv
end

# Whether a subcommand is at the cursor, first or after `help`.
function __epx_at_command
    set -l words (commandline -opc)
    test (count $words) -eq 1; or test (count $words) -eq 2 -a "$words[2]" = help
end

# Whether a path may be at the cursor: not where an option or its value is, unless the value is a
# path, and not before the names that are no paths.
function __epx_at_path
    set -l words (commandline -opc)
    set -l firsts
    switch "$words[2]"
%(firsts)s
        case '*'
            return 1
    end
    set -e words[1..2]
    set -l is_value
    set -l is_ended
    for word in $words
        if set -q is_value[1]
            set is_value
        else if not set -q is_ended[1]; and string match -q -- '-?*' $word
            switch $word
                case --
                    set is_ended 1
                case %(valued)s
                    set is_value $word
            end
        else
            set firsts (math $firsts - 1)
        end
    end
    set -q is_ended[1]; or not string match -q -- '-*' (commandline -ct); or return 1
    contains -- "$is_value" %(paths)s; and return 0
    not set -q is_value[1]; and test $firsts -le 0
end

complete -c epx -f
complete -c epx -n __epx_at_path -F
%(rows)s
"""


def quoted(text):
    """A text between single quotes, for zsh."""
    return "'" + text.replace("'", "'\\''") + "'"


def fish_quoted(text):
    """A text between single quotes, for fish."""
    return "'" + text.replace("\\", "\\\\").replace("'", "\\'") + "'"


def firsts_of(command):
    """How many names of a subcommand come before its first path, or None: it has no path."""
    places = [place for place, name in enumerate(command.names) if name in PATHS]
    return places[0] if places else None


def grouped(commands, key):
    """The names of the subcommands that have the same key, in order, by key."""
    groups = {}
    for command in commands:
        groups.setdefault(key(command), []).append(command.name)
    return groups


def valued():
    """The options that take a value."""
    found = [option.name for command in subcommands() for option in command.options if option.value]
    return list(dict.fromkeys(found))


def takes_path(option):
    """Whether the value of an option is a path."""
    return (option.value or "").strip("<>") in PATHS


def path_options():
    """The options whose value is a path."""
    found = [option for command in subcommands() for option in command.options]
    return list(dict.fromkeys(option.name for option in found if takes_path(option)))


def with_paths():
    """The subcommands that have a path."""
    return [command for command in subcommands() if firsts_of(command) is not None]


def bash():
    def key(command):
        return firsts_of(command), " ".join(option.name for option in command.options)

    cases = [
        f'        {"|".join(names)}) options=" {options} " firsts={firsts} ;;'
        for (firsts, options), names in grouped(with_paths(), key).items()
    ]
    return BASH % {
        "commands": " ".join(command.name for command in subcommands()),
        "top": " ".join(option.name for option in top_options()),
        "cases": "\n".join(cases),
        "valued": " | ".join(valued()),
        "paths": " | ".join(path_options()),
    }


def zsh_option(option):
    """An option as `_arguments` of zsh takes it, with a message in the place of its value, or with
    files."""
    about = option.about.replace("[", "\\[").replace("]", "\\]")
    action = "_files" if takes_path(option) else " "
    message = about.replace(":", "\\:")
    value = f"=[{about}]:{message}:{action}" if option.value else f"[{about}]"
    return quoted(option.name + value)


def common_options():
    """The options that all subcommands with a path have."""
    first, *others = [command.options for command in with_paths()]
    return [option for option in first if all(option in options for options in others)]


def zsh_case(options, names):
    """The words of `_arguments` for options that not all subcommands have, and for names."""
    words = [zsh_option(option) for option in options if option not in common_options()]
    for place, name in enumerate(names[:-1], 1):
        action = "_epx_files" if name in PATHS else f" _epx_say {name}"
        words.append(quoted(f"{place}:{name}:{action}"))
    words.append(quoted(f"*:{names[-1]}:_epx_files"))
    return "".join(f" \\\n                {word}" for word in words)


def zsh():
    groups = grouped(with_paths(), lambda command: (command.options, command.names))
    rows = [quoted(f"{command.name}:{command.about}") for command in subcommands()]
    cases = [
        f"        {'|'.join(names)})\n            _arguments -S $options{zsh_case(*key)} ;;"
        for key, names in groups.items()
    ]
    return ZSH % {
        "rows": "\n".join("        " + row for row in rows),
        "top": " ".join(zsh_option(option) for option in top_options()),
        "options": "\n".join("        " + zsh_option(option) for option in common_options()),
        "cases": "\n".join(cases),
    }


def fish_option(option, where):
    """The line of an option, which is offered once a command line."""
    # files are offered where a path may be
    value = "-r" if takes_path(option) else "-x"
    words = [f"-l {option.name[2:]}", value if option.value else ""]
    condition = f"'{where}; and not __fish_contains_opt {option.name[2:]}'"
    words = ["complete -c epx -n", condition, *filter(None, words), "-d", fish_quoted(option.about)]
    return " ".join(words)


def fish_options():
    """The lines of the options, each with the subcommands that have it."""
    having = {}
    for command in subcommands():
        for option in command.options:
            having.setdefault(option, []).append(command.name)
    return [fish_option(option, f"__epx_in {' '.join(names)}") for option, names in having.items()]


def fish():
    first = "test (count (commandline -opc)) -eq 1"
    rows = [fish_option(option, first) for option in top_options()]
    for command in subcommands():
        about = fish_quoted(command.about)
        rows.append(f"complete -c epx -n __epx_at_command -a {command.name} -d {about}")
    firsts = [
        f"        case {' '.join(names)}\n            set firsts {count}"
        for count, names in grouped(with_paths(), firsts_of).items()
    ]
    return FISH % {
        "firsts": "\n".join(firsts),
        "valued": " ".join(valued()),
        "paths": " ".join(path_options()),
        "rows": "\n".join(rows + fish_options()),
    }
