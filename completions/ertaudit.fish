# Completion of ertaudit(1) for fish: the program reads standard input, and no words.
complete -c ertaudit -f
