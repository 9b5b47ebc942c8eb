# Completion of the words of `felgoniz` for fish; files are completed beside them.

complete -c felgoniz -l new -d 'Begin the game anew'
complete -c felgoniz -l session -x -d 'Go on with the session of this number'
complete -c felgoniz -l list -d 'List the sessions'
complete -c felgoniz -s h -l help -d 'Print help'
complete -c felgoniz -s V -l version -d 'Print the version'
complete -c felgoniz -n __fish_use_subcommand -a inform -d 'Run the compiler'
complete -c felgoniz -n __fish_use_subcommand -a play -d 'Run the player'
