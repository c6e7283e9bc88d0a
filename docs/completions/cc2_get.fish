# Completions of cc2_get for fish: put this file into ~/.config/fish/completions.
complete -c cc2_get -f
complete -c cc2_get -n 'test (count (commandline -opc)) -eq 1' -a '(__fish_complete_directories)'
complete -c cc2_get -n 'test (count (commandline -opc)) -eq 2' -a build -d 'the table build, with origins'
complete -c cc2_get -n 'test (count (commandline -opc)) -eq 2' -a rustc -d 'the command for rustc'
complete -c cc2_get -n 'test (count (commandline -opc)) -eq 2' -a host -d 'the host'
complete -c cc2_get -n 'test (count (commandline -opc)) -eq 2' -a target -d 'linker, runner and flags of a target'
complete -c cc2_get -n '__fish_seen_subcommand_from target' -a '(rustc --print target-list 2>/dev/null)'
complete -c cc2_get -n 'test (count (commandline -opc)) -ge 3' -l config -x -d 'set what a TOML text says'
complete -c cc2_get -n 'test (count (commandline -opc)) -ge 3' -l config-file -r -F -d 'set what a file says'
