#compdef asancol
# Completion of asancol for zsh.
# Made by `make options` from options/asancol.options.

local context state line
_arguments -S \
    '(- *)'{-h,--help}'[Print help]' \
    '(- *)--version[Print version]' \
    '1:command:((help\:"print the help" check\:"check the traces in files" serve\:"check what is sent to a Unix socket"))' \
    '*::argument:->rest'
[[ $state == rest ]] && case $line[1] in
help)
    _arguments -S \
        '1:word:(check serve)'
    ;;
check)
    _arguments -S \
        '--quarantine=[Bytes of freed blocks and their redzones to hold back]:number (268435456)' \
        '--limit=[Events that each trace may have]:number (16777216)' \
        '--memory=[Bytes that the checker of each process may hold]:number (no bound)' \
        '--workers=[Worker threads that share the processes and work side by side]:number (2)' \
        '--ring=[Events of each process that may wait for its checker]:number (1024)' \
        '--live[Print each report when it is found, and the end lines last]' \
        '--verbose[Say at the end, on standard error, what became of each file]' \
        '(- *)'{-h,--help}'[Print help]' \
        '*:file:_files'
    ;;
serve)
    _arguments -S \
        '--quarantine=[Bytes of freed blocks and their redzones to hold back]:number (268435456)' \
        '--limit=[Events that each trace may have]:number (16777216)' \
        '--memory=[Bytes that the checker of each process may hold]:number (no bound)' \
        '--workers=[Worker threads that share the processes and work side by side]:number (2)' \
        '--ring=[Events of each process that may wait for its checker]:number (1024)' \
        '--live[Print each report when it is found, and the end lines last]' \
        '--count=[Connections to accept before the first is read]:number' \
        '--ready=[A file to make, or to empty, once the socket listens]:file:_files' \
        '(- *)'{-h,--help}'[Print help]' \
        '*:file:_files'
    ;;
esac
