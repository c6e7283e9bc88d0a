# Completions of cargo-config2 for fish: put this file into ~/.config/fish/completions.
function __cargo_config2_has_command -d 'Whether a command is on the line, beside options and their values'
    set -l words (commandline -opc)[2..]
    while set -q words[1]
        switch $words[1]
            case -C --config --color
                set words $words[3..]
            case '-*'
                set words $words[2..]
            case '*'
                return 0
        end
    end
    return 1
end
complete -c cargo-config2 -f
complete -c cargo-config2 -n 'not __cargo_config2_has_command' -a get -d 'print the configuration, or the value of a key'
complete -c cargo-config2 -n 'not __cargo_config2_has_command' -a target -d 'print the linker, runner and flags for targets'
complete -c cargo-config2 -n 'not __cargo_config2_has_command' -a rustc -d 'print the command that runs rustc'
complete -c cargo-config2 -n 'not __cargo_config2_has_command' -a host -d 'print the target triple of the host'
complete -c cargo-config2 -n 'not __cargo_config2_has_command' -a version -d 'print the versions of rustc and cargo'
complete -c cargo-config2 -n 'not __cargo_config2_has_command' -a lint -d 'report mistakes in configuration files'
complete -c cargo-config2 -n 'not __cargo_config2_has_command; or __fish_seen_subcommand_from help' -a help -d 'print help'
complete -c cargo-config2 -n '__fish_seen_subcommand_from help' -a 'get target rustc host version lint'
complete -c cargo-config2 -s C -x -a '(__fish_complete_directories)' -d 'change to a directory first'
complete -c cargo-config2 -l config -r -F -d 'override a value: KEY=VALUE or a path'
complete -c cargo-config2 -l color -x -a 'auto always never' -d 'coloring'
complete -c cargo-config2 -s q -l quiet -d 'no summary of lint'
complete -c cargo-config2 -l no-programs -d 'run no program'
complete -c cargo-config2 -s h -l help -d 'print help'
complete -c cargo-config2 -s V -l version -d 'print version'
complete -c cargo-config2 -n '__fish_seen_subcommand_from get' -l format -x -a 'toml json json-value' -d 'output format'
complete -c cargo-config2 -n '__fish_seen_subcommand_from get' -l merged -x -a 'yes no' -d 'one configuration, or each source'
complete -c cargo-config2 -n '__fish_seen_subcommand_from get' -l show-origin -d 'where each value is set'
complete -c cargo-config2 -n '__fish_seen_subcommand_from get' -l files -d 'the files alone'
complete -c cargo-config2 -n '__fish_seen_subcommand_from get' -l rules -x -a 'cargo crate' -d 'whose rules'
complete -c cargo-config2 -n '__fish_seen_subcommand_from get' -l resolved -d 'relative paths joined, flags and aliases split into words'
complete -c cargo-config2 -n '__fish_seen_subcommand_from get' -l tokens -d 'print tokens'
complete -c cargo-config2 -n '__fish_seen_subcommand_from target' -l build-scripts -d 'what build scripts get'
complete -c cargo-config2 -n '__fish_seen_subcommand_from target' -l format -x -a 'toml json' -d 'output format'
complete -c cargo-config2 -n '__fish_seen_subcommand_from target' -l rules -x -a 'cargo crate' -d 'whose rules'
complete -c cargo-config2 -n '__fish_seen_subcommand_from target' -a '(rustc --print target-list 2>/dev/null)'
complete -c cargo-config2 -n '__fish_seen_subcommand_from rustc host' -l rules -x -a 'cargo crate' -d 'whose rules'
complete -c cargo-config2 -n '__fish_seen_subcommand_from lint' -l deny -x -a 'note warning error' -d 'level that makes the status 1'
complete -c cargo-config2 -n '__fish_seen_subcommand_from lint' -l allow -x -a 'bad-include bad-template bad-value cargo-accepts cargo-only cargo-refuses conflicting-cfg debug-assertions differs-from-cargo empty-path empty-wrapper ignored-cfg ignored-key invalid-cfg invalid-toml json-target mixed-types never-matches not-utf8 old-file-name overridden overridden-by-variable quiet-and-verbose quoted-triple readable-token removed-key shadowed-alias shadowed-file source-with-locations source-without-location token unknown-key unreadable unresolvable zero-jobs' -d 'a lint to leave out'
complete -c cargo-config2 -n '__fish_seen_subcommand_from lint' -l target -x -a '(rustc --print target-list 2>/dev/null)' -d 'a target'
complete -c cargo-config2 -n '__fish_seen_subcommand_from lint' -l compare -d 'where Cargo and cargo-config2 0.1.45 differ'
complete -c cargo-config2 -n '__fish_seen_subcommand_from lint' -l format -x -a 'text json sarif' -d 'output format'
complete -c cargo-config2 -n '__fish_seen_subcommand_from lint' -F
