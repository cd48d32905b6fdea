# Completion of the command line of cbpf(1) for fish.

# How many names stand before the cursor, with the subcommand's: no options, and no value of `-v`.
function __cbpf_names
    set -l names 0
    set -l value no
    for word in (commandline -opc)
        if test $value = yes
            set value no
        else if test $word = -v
            set value yes
        else if not string match -q -- '-*' $word
            set names (math $names + 1)
        end
    end
    echo $names
end

complete -c cbpf -f
complete -c cbpf -n 'test (count (commandline -opc)) = 1' -a 'asm dbg why help --help --version'
complete -c cbpf -n '__fish_seen_subcommand_from asm dbg why' -l help -d 'print help'
complete -c cbpf -n '__fish_seen_subcommand_from asm' -s c -d 'write C'
# The second name of dbg is the output's, which is emptied: no file that is there is offered.
complete -c cbpf -n '__fish_seen_subcommand_from asm dbg; and test (__cbpf_names) = 2' -F
complete -c cbpf -n '__fish_seen_subcommand_from why' -s l -d 'listing with counts'
complete -c cbpf -n '__fish_seen_subcommand_from why' -s g -d 'graph with counts'
complete -c cbpf -n '__fish_seen_subcommand_from why' -s p -d 'a line for each packet'
complete -c cbpf -n '__fish_seen_subcommand_from why' -s v -x -d 'give an extension a value' \
    -a '{proto,type,ifidx,mark,queue,hatype,rxhash,cpu,vlan_tci,vlan_avail,vlan_tpid}='
complete -c cbpf -n '__fish_seen_subcommand_from why; and contains (__cbpf_names) 2 3' -F
complete -c cbpf -n '__fish_seen_subcommand_from help; and test (__cbpf_names) = 2' -a 'asm dbg why help'
