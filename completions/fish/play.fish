# Completion of the words of `play` for fish; files are completed beside them.

# The answers, each with its title.
function __play_answers
    play --explain 2>/dev/null | string replace ': ' \t
end

# Whether story files are checked: then other options are offered than where one is played.
function __play_checks
    __fish_contains_opt check
end

# With --check.
complete -c play -n __play_checks -l format -x -a tsv -d 'Print a line of columns for each file'

# With --check, and without it.
complete -c play -l standard -d 'Play every opcode of the Standard'

# Without --check.
complete -c play -n 'not __play_checks' -l fuel -x -d 'Give each turn this many units of fuel'
complete -c play -n 'not __play_checks' -l undo -x -d 'Keep up to this many turns to undo'
complete -c play -n 'not __play_checks' -l explain -x -a '(__play_answers)' -d 'Explain an answer, or list all'
complete -c play -n 'not __play_checks' -l check -d 'Say whether story files load, and which opcodes outside the profile they reach'
complete -c play -n 'not __play_checks' -l why -d 'Say at the end where the story is'
complete -c play -n 'not __play_checks' -l map -r -F -d 'With --why, name the routine and the line by this map'
complete -c play -n 'not __play_checks' -l profile -d 'Play the opcodes of the profile alone'
complete -c play -n 'not __play_checks' -l seed -x -d 'Begin the random numbers with this'
complete -c play -n 'not __play_checks' -l session -r -F -d 'Keep each line in this file, and go on from the last one'
complete -c play -n 'not __play_checks' -l saves -x -a '(__fish_complete_directories)' -d 'Save games of the story in this folder'
complete -c play -n 'not __play_checks' -l transcript -r -F -d 'Add what the story prints after its word script to this file'
complete -c play -n 'not __play_checks' -l wrap -x -d 'Break lines at words for a terminal of this many columns'
complete -c play -n 'not __play_checks' -l screen -d 'Draw the status line and windows at the top of the terminal'
complete -c play -n 'not __play_checks' -l size-file -r -F -d 'Draw each reply for the size that this file tells'
complete -c play -n 'not __play_checks' -l no-screen -d 'Write plain lines at a terminal, too'
complete -c play -n 'not __play_checks' -l styles -d 'Mark reverse, bold, italic and fixed pitch by ANSI sequences'
complete -c play -n 'not __play_checks' -l json -d 'Write each reply as a JSON object on one line'
complete -c play -n 'not __play_checks' -s h -l help -d 'Print help'
complete -c play -n 'not __play_checks' -s V -l version -d 'Print the version'
