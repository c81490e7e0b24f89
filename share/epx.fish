# Completion of epx for fish, which tools/docs manual writes.

# Whether the subcommand before the cursor is one of these.
function __epx_in
    set -l words (commandline -opc)
    contains -- "$words[2]" $argv
end

# Whether a subcommand is at the cursor, first or after `help`.
function __epx_at_command
    set -l words (commandline -opc)
    test (count $words) -eq 1; or test (count $words) -eq 2 -a "$words[2]" = help
end

# Whether a path may be at the cursor: not where an option or its value is, unless the value is a
# path, and not before the names that are no paths.
function __epx_at_path
    set -l words (commandline -opc)
    set -l firsts
    switch "$words[2]"
        case run order levels blockers graph resume audit check verify linear replay compare follow
            set firsts 0
        case why trace
            set firsts 1
        case '*'
            return 1
    end
    set -e words[1..2]
    set -l is_value
    set -l is_ended
    for word in $words
        if set -q is_value[1]
            set is_value
        else if not set -q is_ended[1]; and string match -q -- '-?*' $word
            switch $word
                case --
                    set is_ended 1
                case --workers --cut --around --steps --skew --reaches --state --save
                    set is_value $word
            end
        else
            set firsts (math $firsts - 1)
        end
    end
    set -q is_ended[1]; or not string match -q -- '-*' (commandline -ct); or return 1
    contains -- "$is_value" --state --save; and return 0
    not set -q is_value[1]; and test $firsts -le 0
end

complete -c epx -f
complete -c epx -n __epx_at_path -F
complete -c epx -n 'test (count (commandline -opc)) -eq 1; and not __fish_contains_opt help' -l help -d 'Print help'
complete -c epx -n 'test (count (commandline -opc)) -eq 1; and not __fish_contains_opt version' -l version -d 'Print version'
complete -c epx -n __epx_at_command -a run -d 'Prints the report: replies, what must wait, the final store'
complete -c epx -n __epx_at_command -a order -d 'Prints the execution order'
complete -c epx -n __epx_at_command -a levels -d 'Prints the conflict levels of the commands'
complete -c epx -n __epx_at_command -a blockers -d 'Says what to recover first: how many each missing instance blocks'
complete -c epx -n __epx_at_command -a graph -d 'Prints the dependency graph, to be drawn by Graphviz'
complete -c epx -n __epx_at_command -a resume -d 'Goes on from an earlier report, and prints the report'
complete -c epx -n __epx_at_command -a audit -d 'Says whether the logs are covered'
complete -c epx -n __epx_at_command -a check -d 'Says whether a list is an order that the protocol allows'
complete -c epx -n __epx_at_command -a verify -d 'Says whether what a replica said is right'
complete -c epx -n __epx_at_command -a linear -d 'Says whether clients saw one copy: whether a history is linear'
complete -c epx -n __epx_at_command -a replay -d 'Executes a list of instances in its order: replies, the final store'
complete -c epx -n __epx_at_command -a compare -d 'Says what the logs say against each other'
complete -c epx -n __epx_at_command -a why -d 'Says why an instance is executed where it is, or why it is not'
complete -c epx -n __epx_at_command -a trace -d 'Prints which executed commands write a key'
complete -c epx -n __epx_at_command -a follow -d 'Executes logs as they come, and prints the replies batch by batch'
complete -c epx -n __epx_at_command -a help -d 'Print this message or the help of the given subcommand(s)'
complete -c epx -n '__epx_in run order levels blockers graph resume audit check verify linear replay compare why trace follow; and not __fish_contains_opt workers' -l workers -x -d 'Workers that share the work, 1 to 64'
complete -c epx -n '__epx_in run order levels blockers graph resume audit check verify linear replay compare why trace follow; and not __fish_contains_opt cut' -l cut -x -d 'Items in a piece of work, 1 to 65536'
complete -c epx -n '__epx_in run order levels blockers graph resume audit check verify linear replay compare why trace follow; and not __fish_contains_opt explain' -l explain -d 'Explains a fault or a finding in further lines'
complete -c epx -n '__epx_in run order levels blockers graph resume audit check verify linear replay compare why trace follow; and not __fish_contains_opt quiet' -l quiet -d 'Shows no progress on a terminal'
complete -c epx -n '__epx_in run order levels blockers resume; and not __fish_contains_opt exit-code' -l exit-code -d 'Exits with status 5 if an instance waits'
complete -c epx -n '__epx_in run order levels blockers graph resume audit check verify linear replay compare why trace follow; and not __fish_contains_opt help' -l help -d 'Print help'
complete -c epx -n '__epx_in graph; and not __fish_contains_opt around' -l around -x -d 'Prints the part around this instance alone'
complete -c epx -n '__epx_in graph; and not __fish_contains_opt steps' -l steps -x -d 'How many steps around it, either way along dependencies [default: 1]'
complete -c epx -n '__epx_in audit check verify linear compare; and not __fish_contains_opt exit-code' -l exit-code -d 'Exits with status 5 if something was found'
complete -c epx -n '__epx_in audit; and not __fish_contains_opt all' -l all -d 'Prints all pairs that would have to be related, each with its key'
complete -c epx -n '__epx_in check; and not __fish_contains_opt prefix' -l prefix -d 'Lets the list lack ready instances, as that of a live replica does'
complete -c epx -n '__epx_in linear; and not __fish_contains_opt skew' -l skew -x -d 'How much clocks may differ, 0 to 2^63 - 1, in the unit of the times'
complete -c epx -n '__epx_in why; and not __fish_contains_opt reaches' -l reaches -x -d 'Prints a shortest path of dependencies to this instance instead'
complete -c epx -n '__epx_in trace; and not __fish_contains_opt reads' -l reads -d 'Prints the commands that read the key, too'
complete -c epx -n '__epx_in follow; and not __fish_contains_opt each' -l each -d 'Makes every line a batch'
complete -c epx -n '__epx_in follow; and not __fish_contains_opt state' -l state -r -d 'Goes on from this state, or from an earlier report'
complete -c epx -n '__epx_in follow; and not __fish_contains_opt save' -l save -r -d 'Saves the state at the end under this path'
