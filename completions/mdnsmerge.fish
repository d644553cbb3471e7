# fish completions for the program that this file is named after, mdnsmerge or mdnswhy: the commands, their options, and captures.
# The help of a program lists what it has; where it can't be asked, files are completed.

set -l program (string replace '.fish' '' -- (status basename))
set -l pages (command $program --help 2>/dev/null)
set -l commands (string replace -rf '^  ([a-z]+)  .*' '$1' -- $pages)
set -q commands[1]; and complete -c $program -f

complete -c $program -s h -l help -d 'Print help'
complete -c $program -n "not __fish_seen_subcommand_from $commands" -s V -l version -d 'Print version'

for name in $commands
    set -l about (string replace -rf "^  $name  +" '' -- $pages)
    complete -c $program -n "not __fish_seen_subcommand_from $commands" -a $name -d $about
    for line in (command $program $name --help 2>/dev/null)
        if set -l found (string match -r '^ +--([a-z-]+)( <[A-Z]+>|)  +(.*)$' -- $line)
            set -l about (string replace -r ' \[.*' '' -- $found[4])
            set -l taken
            test -n "$found[3]"; and set taken -x
            complete -c $program -n "__fish_seen_subcommand_from $name" -l $found[2] $taken -d $about
        end
    end
end

complete -c $program -n "__fish_seen_subcommand_from $commands" -k -a '(__fish_complete_suffix .pcap)'
