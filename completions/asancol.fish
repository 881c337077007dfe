# Completion of asancol for fish.
# Made by `make options` from options/asancol.options.

set -l no_command 'not __fish_seen_subcommand_from help check serve'
complete -c asancol -f
complete -c asancol -n $no_command -a help -d 'print the help'
complete -c asancol -n $no_command -a check -d 'check the traces in files'
complete -c asancol -n $no_command -a serve -d 'check what is sent to a Unix socket'
complete -c asancol -n $no_command -s h -l help -d 'Print help'
complete -c asancol -n $no_command -l version -d 'Print version'
set -l of_help '__fish_seen_subcommand_from help'
complete -c asancol -n $of_help -a 'check serve'
set -l of_check '__fish_seen_subcommand_from check; and not __fish_seen_subcommand_from help'
complete -c asancol -n $of_check -F
complete -c asancol -n $of_check -l quarantine -x -d 'Bytes of freed blocks and their redzones to hold back'
complete -c asancol -n $of_check -l limit -x -d 'Events that each trace may have'
complete -c asancol -n $of_check -l memory -x -d 'Bytes that the checker of each process may hold'
complete -c asancol -n $of_check -l workers -x -d 'Worker threads that share the processes and work side by side'
complete -c asancol -n $of_check -l ring -x -d 'Events of each process that may wait for its checker'
complete -c asancol -n $of_check -l live -d 'Print each report when it is found, and the end lines last'
complete -c asancol -n $of_check -l verbose -d 'Say at the end, on standard error, what became of each file'
complete -c asancol -n $of_check -s h -l help -d 'Print help'
set -l of_serve '__fish_seen_subcommand_from serve; and not __fish_seen_subcommand_from help check'
complete -c asancol -n $of_serve -F
complete -c asancol -n $of_serve -l quarantine -x -d 'Bytes of freed blocks and their redzones to hold back'
complete -c asancol -n $of_serve -l limit -x -d 'Events that each trace may have'
complete -c asancol -n $of_serve -l memory -x -d 'Bytes that the checker of each process may hold'
complete -c asancol -n $of_serve -l workers -x -d 'Worker threads that share the processes and work side by side'
complete -c asancol -n $of_serve -l ring -x -d 'Events of each process that may wait for its checker'
complete -c asancol -n $of_serve -l live -d 'Print each report when it is found, and the end lines last'
complete -c asancol -n $of_serve -l count -x -d 'Connections to accept before the first is read'
complete -c asancol -n $of_serve -l ready -r -F -d 'A file to make, or to empty, once the socket listens'
complete -c asancol -n $of_serve -s h -l help -d 'Print help'
