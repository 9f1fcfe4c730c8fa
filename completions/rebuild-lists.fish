# The completions of rebuild-lists for fish: its commands, their options with numbers that are in their ranges, files and folders.

# Whether the command is one of these.
function __rebuild_lists_word_is
    set -l words (commandline -opc)
    test (count $words) -ge 2; and contains -- $words[2] $argv
end

# Whether the next argument that is no option of one of these commands has a number from this one to that one, counted from 1.
function __rebuild_lists_place_is
    set -l words (commandline -opc)
    __rebuild_lists_word_is $argv[3..]; or return 1
    set -l place 1
    set -l skip 0
    for word in $words[3..]
        if test $skip = 1
            set skip 0
        else if contains -- $word --racks --requests --workers --program --lists --feed
            set skip 1
        else if not string match -q -- '-*' $word
            set place (math $place + 1)
        end
    end
    test $skip = 0 -a $place -ge $argv[1] -a $place -le $argv[2]
end

complete -c rebuild-lists -f
complete -c rebuild-lists -n __fish_is_first_arg -a check -d 'Say what is wrong with the lists of a folder'
complete -c rebuild-lists -n __fish_is_first_arg -a split -d 'Make folders of the requests of a long list'
complete -c rebuild-lists -n __fish_is_first_arg -a serve -d 'Serve one of the folders that split made'
complete -c rebuild-lists -n __fish_is_first_arg -a merge -d 'Make one report of the reports of all folders'
complete -c rebuild-lists -n __fish_is_first_arg -a tell -d 'Count the outcomes in reports'
complete -c rebuild-lists -n __fish_is_first_arg -a put -d 'Copy rebuilt fragments into the store'
complete -c rebuild-lists -n __fish_is_first_arg -a damaged -d 'Find the damaged survivor of a contradiction'
complete -c rebuild-lists -n __fish_is_first_arg -s V -l version -d 'Show the version'
complete -c rebuild-lists -s h -l help -d 'Show help'
complete -c rebuild-lists -n '__rebuild_lists_word_is split' -l racks -x -a '(seq 1 16)' -d 'Racks of a folder, 1 to 16'
complete -c rebuild-lists -n '__rebuild_lists_word_is split' -l requests -x -a '16 64 256 1024 4096' -d 'Requests of a rack, 1 to 4096'
complete -c rebuild-lists -n '__rebuild_lists_word_is split' -l copy -d 'Copy the surviving fragments'
complete -c rebuild-lists -n '__rebuild_lists_word_is serve' -l workers -x -a '(seq 1 16)' -d 'Threads of the program, 1 to 16'
complete -c rebuild-lists -n '__rebuild_lists_word_is serve damaged' -l program -r -F -d 'The program'
complete -c rebuild-lists -n '__rebuild_lists_word_is tell' -l lists -x -a '(__fish_complete_directories (commandline -ct) "Folder")' \
    -d 'Name the unanswered requests of this folder'
complete -c rebuild-lists -n '__rebuild_lists_word_is put' -l lists -x -a '(__fish_complete_directories (commandline -ct) "Folder")' \
    -d 'The folder of the lists that OUT answers'
complete -c rebuild-lists -n '__rebuild_lists_word_is put' -l overwrite -d 'Replace fragments that have different contents'
complete -c rebuild-lists -n '__rebuild_lists_word_is damaged' -l feed -x -a '0 1 2 3' -d 'The feed whose list it is'
complete -c rebuild-lists -n '__rebuild_lists_place_is 1 1 split' -F
for places in '1 1 serve damaged' '1 2 check merge' '2 3 split' '1 999 tell put'
    complete -c rebuild-lists -n "__rebuild_lists_place_is $places" -a '(__fish_complete_directories (commandline -ct) "Folder")'
end
