# Completion of the words of `inform` for fish; files are completed beside them.

# The faults, each with its title.
function __inform_faults
    inform --explain 2>/dev/null | string replace ': ' \t
end

complete -c inform -s v -x -a '5 8' -d 'The version of the story file'
complete -c inform -l explain -x -a '(__inform_faults)' -d 'Explain a fault, or list all'
complete -c inform -l show -d 'Show where a source is at fault'
complete -c inform -l plain -d 'Say why a source is refused in one line'
complete -c inform -l warn -d 'Warn of likely mistakes'
complete -c inform -l sizes -d 'Print what a source takes'
complete -c inform -l extended -d 'Compile a source of the larger language'
complete -c inform -l include -x -a '(__fish_complete_directories)' -d 'A folder of files that a source includes'
complete -c inform -l derived -d 'Print the source that an extended one stands for'
complete -c inform -l large -d 'Limit the story in place of the weight of the source'
complete -c inform -l map -r -F -d 'Write which addresses are of which line'
complete -c inform -s h -l help -d 'Print help'
complete -c inform -s V -l version -d 'Print the version'
