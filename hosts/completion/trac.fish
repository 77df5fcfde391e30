# Completion in fish for trac, trac_trace and trac_terminal: the options are those that the program's --help shows.

# Prints the options of a program that are not yet on the command line, each with its text in the help.
function __trac_options
    set -l given (commandline -opc)
    $argv[1] --help 2>/dev/null </dev/null | while read -l line
        set -l found (string match -r -- '^\s*(?:-\w, )?(--[a-z-]+)(?: <\w+>)?\s+(.*)$' $line)
        and not contains -- $found[2] $given
        and printf '%s\t%s\n' $found[2] $found[3]
    end
end

for program in trac trac_trace trac_terminal
    complete -c $program -n 'string match -q -- "-*" (commandline -ct)' -f -a "(__trac_options $program)"
end
