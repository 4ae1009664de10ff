# Completion of tigercanon's words in fish. To have it, put this file into ~/.config/fish/completions.

set -l commands normalise fingerprint compare respell check help
set -l sets normalise fingerprint compare respell check
set -l maps normalise fingerprint compare

# What the names of a county's files begin with.
function __tigercanon_stems
    for file in (__fish_complete_path (commandline -ct))
        string replace --regex --filter '\.RT1(\t.*)?$' '' -- $file
        string replace --regex --filter '/(\t.*)?$' / -- $file
    end
end

complete -c tigercanon -f
complete -c tigercanon -n "not __fish_seen_subcommand_from $commands" -a normalise -d 'Print the canonical text of the map'
complete -c tigercanon -n "not __fish_seen_subcommand_from $commands" -a fingerprint -d 'Print the hash of the canonical text'
complete -c tigercanon -n "not __fish_seen_subcommand_from $commands" -a compare -d 'Compare two maps'
complete -c tigercanon -n "not __fish_seen_subcommand_from $commands" -a respell -d 'Print the records in canonical spelling'
complete -c tigercanon -n "not __fish_seen_subcommand_from $commands" -a check -d 'Check whether there is a canonical text'
complete -c tigercanon -n "not __fish_seen_subcommand_from $commands" -a help -d 'Print the help of the program or of a command'
complete -c tigercanon -n "not __fish_seen_subcommand_from $commands" -s V -l version -d 'Print the version'
complete -c tigercanon -s h -l help -d 'Print the help'
complete -c tigercanon -n "__fish_seen_subcommand_from $sets" -l stem -d 'The name is what the names of the files begin with'
complete -c tigercanon -n "__fish_seen_subcommand_from $maps" -l no-sources -d 'Leave out the fields that name the source of the data'
complete -c tigercanon -n "__fish_seen_subcommand_from $maps" -l no-reserved -d 'Leave out the reserved fields'
complete -c tigercanon -n "__fish_seen_subcommand_from $sets; and __fish_contains_opt stem" -k -a '(__tigercanon_stems)'
complete -c tigercanon -n "__fish_seen_subcommand_from $sets; and not __fish_contains_opt stem" -F
complete -c tigercanon -n "__fish_seen_subcommand_from help" -a "$commands"
