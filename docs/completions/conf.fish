# Completions of `cargo config2` for fish, as of `cargo-config2`: put this file into ~/.config/fish/conf.d.
function __cargo_config2_of_cargo -d 'What cargo-config2 would offer'
    set -l words (commandline -opc)
    set words $words[(math (contains -i -- config2 $words) + 1)..]
    complete -C "cargo-config2 "(string join ' ' -- (string escape -- $words) (commandline -ct))
end
complete -c cargo -n '__fish_seen_subcommand_from config2' -f -a '(__cargo_config2_of_cargo)'
