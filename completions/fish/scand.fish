# Completion of scand's words, for fish.

complete -c scand -f
complete -c scand -l port -x -d 'Listen on this port of 127.0.0.1, 0 for any'
complete -c scand -l connections -x -d 'Accept this many connections in all, from 1 to 64'
complete -c scand -l stdio -d 'Serve one client over standard input and output'
complete -c scand -l plans -r -F -d 'Publish the plans of a file first; may be repeated'
complete -c scand -s h -l help -d 'Write a description, to standard error'
complete -c scand -s V -l version -d 'Write the version, to standard error'
