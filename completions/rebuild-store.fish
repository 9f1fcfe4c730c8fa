# The completions of rebuild-store for fish: its commands, their options with the values that they take, files and folders.

# Whether the command is one of these.
function __rebuild_store_command_is
    set -l words (commandline -opc)
    test (count $words) -ge 2; and contains -- $words[2] $argv
end

# Whether the next argument that is no option of one of these commands has a number from this one to that one, counted from 1.
function __rebuild_store_place_is
    set -l words (commandline -opc)
    __rebuild_store_command_is $argv[3..]; or return 1
    set -l place 1
    set -l skip 0
    for word in $words[3..]
        if test $skip = 1
            set skip 0
        else if contains -- $word --code --names --layout --stripes --part --workers --rate --sums --report --progress --to --reads --as --output -j -o
            set skip 1
        else if not string match -q -- '-*' $word
            set place (math $place + 1)
        end
    end
    test $skip = 0 -a $place -ge $argv[1] -a $place -le $argv[2]
end

complete -c rebuild-store -f
complete -c rebuild-store -n __fish_is_first_arg -a repair -d 'Rebuild each lost fragment and put it in its place'
complete -c rebuild-store -n __fish_is_first_arg -a lost -d 'Write the request list of what is lost'
complete -c rebuild-store -n __fish_is_first_arg -a scrub -d 'Test whether the fragments of each stripe belong together'
complete -c rebuild-store -n __fish_is_first_arg -a encode -d 'Make files the fragments of stripes'
complete -c rebuild-store -n __fish_is_first_arg -a read -d 'Write a file that was encoded'
complete -c rebuild-store -n __fish_is_first_arg -a list -d 'Say which files are in a store'
complete -c rebuild-store -n __fish_is_first_arg -a verify -d 'Read files back and hold them to their digests'
complete -c rebuild-store -n __fish_is_first_arg -a remove -d 'Take files out of a store'
complete -c rebuild-store -n __fish_is_first_arg -a help -d 'Show help'
complete -c rebuild-store -n __fish_is_first_arg -s V -l version -d 'Show the version'
complete -c rebuild-store -n 'not __rebuild_store_command_is help' -s h -l help -d 'Show help'
complete -c rebuild-store -n '__rebuild_store_command_is help; and test (count (commandline -opc)) = 2' \
    -a 'repair lost scrub encode read list verify remove' -d 'The help of a command'
set -l all repair lost scrub encode read list verify remove
set -l coded repair lost scrub encode list remove
complete -c rebuild-store -n "__rebuild_store_command_is $coded" -l code -x -a '6-2-2 12-2-2' -d 'The code of the store'
complete -c rebuild-store -n "__rebuild_store_command_is $all" -l names -x -d 'How files are named'
complete -c rebuild-store -n "__rebuild_store_command_is $all" -l layout -x -a 'plain groups' -d 'How shards number the places'
complete -c rebuild-store -n "__rebuild_store_command_is $all" -l follow-links -d 'Follow links below the store'
complete -c rebuild-store -n '__rebuild_store_command_is repair encode remove' -l trust-writers \
    -d 'As root, work in folders that others may write into'
complete -c rebuild-store -n '__rebuild_store_command_is repair encode' -l allow-unmounted -d 'Write also where no disk is mounted'
complete -c rebuild-store -n '__rebuild_store_command_is repair scrub encode read verify remove' -s q -l quiet \
    -d 'Show no progress and no last line'
complete -c rebuild-store -n '__rebuild_store_command_is encode' -l as -x -d 'Name in the store, of one file'
complete -c rebuild-store -n '__rebuild_store_command_is encode' -l make-folders -d 'Make the folders that names have'
complete -c rebuild-store -n '__rebuild_store_command_is encode' -l replace -d 'Replace files that have other bytes'
complete -c rebuild-store -n '__rebuild_store_command_is read' -s o -l output -r -F -d 'File that is written'
set -l over repair lost scrub list
complete -c rebuild-store -n "__rebuild_store_command_is $over" -l stripes -r -F -d 'Names of the stripes that have to be there'
complete -c rebuild-store -n "__rebuild_store_command_is $over" -l part -x -d 'Work on one part of the stripes, as 1/10'
complete -c rebuild-store -n "__rebuild_store_command_is $over" -l json -d 'Write JSON'
set -l held repair scrub
complete -c rebuild-store -n "__rebuild_store_command_is $held" -s j -l workers -x -a '(seq 1 16)' -d 'Threads that work on stripes, 1 to 16'
complete -c rebuild-store -n "__rebuild_store_command_is $held" -l sums -r -F -d 'Digests of the fragments'
complete -c rebuild-store -n "__rebuild_store_command_is $held" -l report -r -F -d 'Write what became of each fragment'
complete -c rebuild-store -n "__rebuild_store_command_is $held" -l progress -r -F -d 'Write counters for Prometheus'
complete -c rebuild-store -n "__rebuild_store_command_is $held" -l rate -x -d 'Read at most so many bytes a second, as 50M'
complete -c rebuild-store -n '__rebuild_store_command_is repair' -s n -l dry-run -d 'Only say what would be done'
complete -c rebuild-store -n '__rebuild_store_command_is repair' -l replace-damaged -d 'Replace damaged fragments, and keep them'
complete -c rebuild-store -n '__rebuild_store_command_is repair' -l assume-one-damaged -d 'Guess which fragment is damaged'
complete -c rebuild-store -n '__rebuild_store_command_is repair' -l to -x -a '(__fish_complete_directories (commandline -ct) "Folder")' \
    -d 'Folder for rebuilt fragments'
complete -c rebuild-store -n '__rebuild_store_command_is repair' -l reads -x -a 'all checked few' -d 'Survivors that are read'
complete -c rebuild-store -n "__rebuild_store_place_is 1 1 $all" -a '(__fish_complete_directories (commandline -ct) "Folder")'
complete -c rebuild-store -n '__rebuild_store_place_is 2 999 encode' -F
