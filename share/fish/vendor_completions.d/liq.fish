# Completion of the words of liq and of the commands beside it for fish. The options of a command are those that its help names.
set -l commands adopt advice air doctor lsp night page picture prepare station try week where

# The options that the help of a command names, `--x=` and not `--x` where it has both.
function __liq_named
    set -l named ($argv </dev/null 2>/dev/null | grep -oE -- '--[a-z][a-z-]*=?' | sort -u)
    for option in $named
        string match -q -- '*=' $option; or not contains -- "$option=" $named; and echo $option
    end
end

# The options of the command that stands on the command line.
function __liq_options
    set -l words (commandline -opc)
    switch $words[1]
        case liq '*/liq'
            switch "$words[2]"
                case render
                    string split ' ' -- '--one-thread --window= --start= --trace= --cues'
                case replay
                    echo -- --start=
                case check make help ''
                case '*'
                    __liq_named $words[1] help $words[2]
            end
        case '*'
            __liq_named $words[1] --help
    end
end

complete -c liq -n '__fish_is_first_arg' -f -a check -d 'Check a script'
complete -c liq -n '__fish_is_first_arg' -f -a render -d 'Write N ticks of each output'
complete -c liq -n '__fish_is_first_arg' -f -a make -d 'Render a station made of two numbers'
complete -c liq -n '__fish_is_first_arg' -f -a replay -d 'Render again, by a trace'
complete -c liq -n '__fish_is_first_arg' -f -a "$commands help --help --version"
complete -c liq -n '__fish_seen_subcommand_from help' -f -a "$commands"
complete -c liq -n 'string match -q -- "-*" (commandline -ct)' -f -a '(__liq_options)'
for name in $commands
    complete -c liq-$name -n 'string match -q -- "-*" (commandline -ct)' -f -a '(__liq_options)'
end
