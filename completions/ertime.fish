# Completion of ertime(1) for fish.
complete -c ertime -f
complete -c ertime -n __fish_is_first_arg -a run -d 'write the transcript of the scenario on standard input'
complete -c ertime -n __fish_is_first_arg -a race -d 'let threads do the lists of the scenario on standard input'
complete -c ertime -n __fish_is_first_arg -a live -d "read the machine's clocks N times"
complete -c ertime -n __fish_is_first_arg -a stress -d 'run a scenario made from a number'
