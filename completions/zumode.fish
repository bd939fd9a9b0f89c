# Completion of zumode for fish. Load it by: source completions/zumode.fish
#
# A command is one line below, and its word in the conditions of the options and files that follow it.

complete -c zumode -f
complete -c zumode -n __fish_use_subcommand -a sim -d 'Run the description, and print its events and the dump'
complete -c zumode -n __fish_use_subcommand -a run -d 'Run the description on threads, and print its events and the dump'
complete -c zumode -n __fish_use_subcommand -a summary -d 'Run the description, and print counts'
complete -c zumode -n __fish_use_subcommand -a layout -d 'Print the addresses of memory and objects'
complete -c zumode -n __fish_use_subcommand -a gen -d 'Print the generated description of a number'
complete -c zumode -n __fish_use_subcommand -a upgrade -d 'Print the canonical description of the same image, in version 2'
complete -c zumode -n __fish_use_subcommand -a audit -d 'Say whether a trace is that of a complete run of the description'

# Whether an option may stand here: behind one of the given commands, at most once, and not as another one's value.
function __zumode_may_have --argument-names option
    set -l words (commandline -opc)
    contains -- $words[2] $argv[2..]; and not contains -- $option $words; and not contains -- $words[-1] --cpus --pick
end

complete -c zumode -n '__zumode_may_have --cpus sim run summary' -a --cpus -d 'Logical processors'
complete -c zumode -n '__zumode_may_have --pick sim summary' -a --pick -d 'Number by which the order is drawn'
complete -c zumode -n 'test (commandline -opc)[-1] = --cpus' -a '1 2 3 4 5 6 7 8'
complete -c zumode -n __fish_use_subcommand -l help -d 'Say how it is used'
complete -c zumode -n __fish_use_subcommand -l version -d 'Say which sources and which program it has'

# Whether a file may stand here: behind a command that reads, and not as an option's value.
function __zumode_may_have_file
    set -l words (commandline -opc)
    contains -- $words[2] sim run summary layout upgrade audit; and not contains -- $words[-1] --cpus --pick
end

# Descriptions stand before other files.
complete -c zumode -k -n __zumode_may_have_file -a '(__fish_complete_suffix .toml)'
