# Completion of explore for fish. Load it by: source completions/explore.fish
#
# A command is one line below, and its word in the conditions of the option and files that follow it.

complete -c explore -f
complete -c explore -n __fish_use_subcommand -a find -d 'Print a shortest run that comes to an event, or say that none does'
complete -c explore -n __fish_use_subcommand -a ends -d 'Print each way in which a run can end'
complete -c explore -n __fish_use_subcommand -a next -d 'Print the lines that can come next in a trace'
complete -c explore -n __fish_use_subcommand -l help -d 'Say how it is used'
complete -c explore -n __fish_use_subcommand -l version -d 'Say which sources and which program it has'

# Whether something may stand here behind a command that reads: not the event of find, and not the value of an option.
function __explore_may_have
    set -l words (commandline -opc)
    contains -- $words[2] $argv; and not test "$words[-1]" = --states; and not test "$words[2]" = find -a (count $words) -eq 2
end

# Whether the option may stand here, which it does at most once.
function __explore_may_have_states
    __explore_may_have find ends; and not contains -- --states (commandline -opc)
end

complete -c explore -n __explore_may_have_states -a --states -d 'How many states are kept at most'

# Descriptions stand before other files.
complete -c explore -k -n '__explore_may_have find ends next' -a '(__fish_complete_suffix .toml)'
