#compdef asancol-listen
# Completion of asancol-listen for zsh.
# Made by `make options` from options/asancol-listen.options.

_arguments -S \
    '--mode=[the mode of SOCKET, in octal digits]:octal digits (600)' \
    '--group=[the group of SOCKET]:group:_groups' \
    '--connections=[at most N COMMANDs run at once]:number (256)' \
    '(- *)'{-h,--help}'[print this help]' \
    '(- *)--version[print the name and the release]' \
    '1:file:_files' \
    '2:folder:_files -/' \
    '(-)3:command: _command_names -e' \
    '*::arguments:{ shift 2 words; (( CURRENT -= 2 )); _normal }'
