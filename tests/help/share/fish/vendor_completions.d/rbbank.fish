# Made by examples/tools/from_help.py from the help of the program.
complete -c rbbank -f
complete -c rbbank -n '__fish_use_subcommand' -a script -d 'Answers the commands on standard input, a line of JSON each'
complete -c rbbank -n '__fish_use_subcommand' -a histories -d 'Runs the commands on standard input as script does, and writes the sites\' histories'
complete -c rbbank -n '__fish_use_subcommand' -a audit -d 'Says whether one world can have recorded the sites\' histories on standard input'
complete -c rbbank -n '__fish_use_subcommand' -a migrate -d 'Writes the sites\' histories on standard input again, in the newest version of their lines'
complete -c rbbank -n '__fish_use_subcommand' -a threads -d 'Runs tellers in threads at the sites of a bank, and writes the sites\' histories'
complete -c rbbank -n '__fish_use_subcommand' -a site -d 'Runs one site, which keeps its history in a file: answers the events on standard input'
complete -c rbbank -n '__fish_use_subcommand' -a close -d 'Closes the books of the sites\' sealed journals, and writes the next bank\'s configuration'
complete -c rbbank -n '__fish_use_subcommand' -a help -d 'Print this message or the help of the given subcommand(s)'
complete -c rbbank -n '__fish_use_subcommand' -s h -l help -d 'Print help'
complete -c rbbank -n '__fish_use_subcommand' -s V -l version -d 'Print version'
complete -c rbbank -n '__fish_seen_subcommand_from script' -s h -l help -d 'Print help'
complete -c rbbank -n '__fish_seen_subcommand_from script' -F
complete -c rbbank -n '__fish_seen_subcommand_from histories' -s h -l help -d 'Print help'
complete -c rbbank -n '__fish_seen_subcommand_from histories' -F
complete -c rbbank -n '__fish_seen_subcommand_from audit' -s h -l help -d 'Print help'
complete -c rbbank -n '__fish_seen_subcommand_from audit' -F
complete -c rbbank -n '__fish_seen_subcommand_from migrate' -s h -l help -d 'Print help'
complete -c rbbank -n '__fish_seen_subcommand_from migrate' -F
complete -c rbbank -n '__fish_seen_subcommand_from threads' -l sites -x -d 'How many sites there are, 2 to 16'
complete -c rbbank -n '__fish_seen_subcommand_from threads' -l tellers -x -d 'How many tellers there are, 1 to 64'
complete -c rbbank -n '__fish_seen_subcommand_from threads' -l seed -x -d 'What the tellers\' numbers begin with, 0 to 4294967295'
complete -c rbbank -n '__fish_seen_subcommand_from threads' -s h -l help -d 'Print help'
complete -c rbbank -n '__fish_seen_subcommand_from site' -l me -x -d 'Which site it is, 0 to 15'
complete -c rbbank -n '__fish_seen_subcommand_from site' -l journal -r -F -d 'The file that the site\'s history is kept in'
complete -c rbbank -n '__fish_seen_subcommand_from site' -l new -d 'Makes the file, or takes an empty one; without it the file must be there'
complete -c rbbank -n '__fish_seen_subcommand_from site' -l resend -x -d 'How many of the last entries have their messages written again, 0 to 100000000; all without it'
complete -c rbbank -n '__fish_seen_subcommand_from site' -l record -x -d 'Which events are recorded: changes (the default) or all'
complete -c rbbank -n '__fish_seen_subcommand_from site' -l bank -x -d 'The bank\'s name, in each message: 1 to 64 of A-Z a-z 0-9 . _ : - (not with --seal)'
complete -c rbbank -n '__fish_seen_subcommand_from site' -l seal -d 'Seals the journal for good; reads no input and serves nothing (not with --bank)'
complete -c rbbank -n '__fish_seen_subcommand_from site' -s h -l help -d 'Print help'
complete -c rbbank -n '__fish_seen_subcommand_from close' -l sites -x -d 'How many sites the next bank has, 2 to 16; as many as before without it'
complete -c rbbank -n '__fish_seen_subcommand_from close' -l account -x -d 'An account to add after the others, which starts with 0; given again for each'
complete -c rbbank -n '__fish_seen_subcommand_from close' -s h -l help -d 'Print help'
complete -c rbbank -n '__fish_seen_subcommand_from close' -F
complete -c rbbank -n '__fish_seen_subcommand_from help' -a 'script histories audit migrate threads site close help'
