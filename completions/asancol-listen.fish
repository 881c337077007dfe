# Completion of asancol-listen for fish.
# Made by `make options` from options/asancol-listen.options.

# Whether an option, or the command and its own words, may stand at the cursor.
function _asancol_listen_takes -a what
    set -l words (commandline -opc)
    set -e words[1]
    set -l others 0
    set -l ends no
    set -l skips no
    for word in $words
        switch $skips$ends$word
            case 'yes*'
                set skips no
            case nono--
                set ends yes
            case 'nono--*=*'
            case nono--mode nono--group nono--connections
                set skips yes
            case 'nono-*'
            case '*'
                set others (math $others + 1)
        end
    end
    if test $what = command
        test $others -ge 2
    else
        test $ends = no -a $others -le 2
    end
end

complete -c asancol-listen -n '_asancol_listen_takes command' -x -a '(__fish_complete_subcommand --fcs-skip=3 - --mode --group --connections)'
complete -c asancol-listen -n '_asancol_listen_takes option' -l mode -x -d 'the mode of SOCKET, in octal digits'
complete -c asancol-listen -n '_asancol_listen_takes option' -l group -x -a '(__fish_complete_groups)' -d 'the group of SOCKET'
complete -c asancol-listen -n '_asancol_listen_takes option' -l connections -x -d 'at most N COMMANDs run at once'
complete -c asancol-listen -n '_asancol_listen_takes option' -s h -l help -d 'print this help'
complete -c asancol-listen -n '_asancol_listen_takes option' -l version -d 'print the name and the release'
