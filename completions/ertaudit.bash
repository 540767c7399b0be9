# Completion of ertaudit(1) for bash: the program reads standard input, and no words.
complete -W '' ertaudit
