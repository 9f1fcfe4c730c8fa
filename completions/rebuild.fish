# The completions of rebuild for fish: its commands, its options with numbers that are in their ranges, and folders.

# Whether the first argument is this one.
function __rebuild_command_is
    set -l words (commandline -opc)
    test (count $words) -ge 2; and test $words[2] = $argv[1]
end

# Whether farm may have this option here: no word in front is -- or has the option, unless it waits for its number.
function __rebuild_may_have
    __rebuild_command_is farm; or return 1
    set -l words (commandline -opc)
    contains -- -- $words; and return 1
    test $words[-1] = --$argv[1]; and set -e words[-1]
    not string match -q -r -- "^--$argv[1](=|\$)" $words
end

# Whether a folder of farm may follow: fewer than two are given.
function __rebuild_lacks_folder
    __rebuild_command_is farm; or return 1
    set -l given 0
    set -l before ''
    set -l ended ''
    for word in (commandline -opc)[3..]
        if test -z "$ended" -a "$word" = --
            set ended yes
        else if test -n "$ended"; or not string match -q -r -- '^-' $word; and not contains -- $before --workers --queue
            set given (math $given + 1)
        end
        set before $word
    end
    test $given -lt 2
end

complete -c rebuild -f
complete -c rebuild -n __fish_is_first_arg -a farm -d 'Rebuild the fragments that the lists of a folder ask for'
complete -c rebuild -n __fish_is_first_arg -a help -d 'Show help'
complete -c rebuild -n __fish_is_first_arg -s h -l help -d 'Show help'
complete -c rebuild -n __fish_is_first_arg -s V -l version -d 'Show the version'
complete -c rebuild -n '__rebuild_command_is help; and test (count (commandline -opc)) = 2' -a farm -d 'The help of farm'
complete -c rebuild -n '__rebuild_may_have help' -s h -l help -d 'Show help'
complete -c rebuild -n '__rebuild_may_have workers' -l workers -x -a '(seq 1 16)' -d 'Threads that rebuild fragments, 1 to 16'
complete -c rebuild -n '__rebuild_may_have queue' -l queue -x -a '1 2 4 8 16 32 64 128 256 512 1024' \
    -d 'Capacity of each queue, 1 to 1024'
complete -c rebuild -n __rebuild_lacks_folder -a '(__fish_complete_directories (commandline -ct) "Folder")'
