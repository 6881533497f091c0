# Completion of litplan's words, for fish.

# Whether one of these options is given. litplan refuses some options beside others.
function __litplan_given
    for word in (commandline -poc)
        contains -- (string replace -r '=.*' '' -- $word) $argv; and return 0
    end
    return 1
end

complete -c litplan -n __fish_use_subcommand -f
complete -c litplan -n __fish_use_subcommand -s h -l help -d 'Write a description, to standard error'
complete -c litplan -n __fish_use_subcommand -s V -l version -d 'Write the version, to standard error'
complete -c litplan -n __fish_use_subcommand -a plan -d 'Print the certificate of the cheapest grouping'
complete -c litplan -n __fish_use_subcommand -a check -d 'Check a certificate'
complete -c litplan -n __fish_use_subcommand -a pack -d 'Write plans to a plan file'
complete -c litplan -n __fish_use_subcommand -a explain -d 'Show how patterns are grouped, or where a file is wrong'
complete -c litplan -n __fish_use_subcommand -a migrate -d 'Plan the lists of a plan file anew'
complete -c litplan -n __fish_use_subcommand -a scan -d 'Find the patterns in an input'
complete -c litplan -n __fish_use_subcommand -a help -d 'Describe a command'

complete -c litplan -n '__fish_seen_subcommand_from plan check pack explain scan; and not __litplan_given --plan --certificate' -s i -l ignore-case -d 'Patterns that differ in case are one'
complete -c litplan -n '__fish_seen_subcommand_from plan check pack explain scan; and not __litplan_given --plan --certificate' -l hex -d 'Lines of FILE are patterns in hexadecimal'
complete -c litplan -n '__fish_seen_subcommand_from plan check pack explain migrate scan' -s h -l help -d 'Write a description, to standard error'
complete -c litplan -n '__fish_seen_subcommand_from plan pack explain; and not __litplan_given --plan --certificate' -l buckets -x -a '8 16' -d 'How many buckets the plan may have'
complete -c litplan -n '__fish_seen_subcommand_from explain; and not __litplan_given --certificate' -l svg -d 'Draw the plan, as an SVG file'
complete -c litplan -n '__fish_seen_subcommand_from check explain; and not __litplan_given --certificate -i --ignore-case --hex --buckets' -l plan -r -F -d 'Take a plan of a plan file'
complete -c litplan -n '__fish_seen_subcommand_from explain; and not __litplan_given --plan -i --ignore-case --hex --buckets --svg' -l certificate -r -F -d 'Explain a certificate'
complete -c litplan -n '__fish_seen_subcommand_from scan; and not __litplan_given --names' -l count -d 'Print only the number of hits'
complete -c litplan -n '__fish_seen_subcommand_from scan; and not __litplan_given --count' -l names -d 'Print starts and literals'
complete -c litplan -n '__fish_seen_subcommand_from scan' -l workers -x -a '(seq 16)' -d 'How many workers share the input'
# The number of a plan is due, or nothing.
complete -c litplan -n '__fish_seen_subcommand_from check explain; and __litplan_given --plan --certificate' -f
complete -c litplan -n '__fish_seen_subcommand_from help' -f -a 'plan check pack explain migrate scan'
