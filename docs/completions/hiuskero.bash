# Completions of cc2_get and cargo-config2 for bash. Source this file in ~/.bashrc, so that `cargo config2` is completed too.
_cc2_get() {
    local word=${COMP_WORDS[COMP_CWORD]} before=${COMP_WORDS[COMP_CWORD - 1]}
    case $COMP_CWORD in
        1) mapfile -t COMPREPLY < <(compgen -d -- "$word") ;;
        2) mapfile -t COMPREPLY < <(compgen -W 'build rustc host target' -- "$word") ;;
        *) if [ "$COMP_CWORD $before" = '3 target' ]; then
            mapfile -t COMPREPLY < <(compgen -W "$(rustc --print target-list 2>/dev/null)" -- "$word")
        elif [ "$before" = --config-file ]; then
            mapfile -t COMPREPLY < <(compgen -f -- "$word")
        elif [ "$before" != --config ]; then
            mapfile -t COMPREPLY < <(compgen -W '--config --config-file' -- "$word")
        fi ;;
    esac
}
complete -F _cc2_get cc2_get

_cargo_config2() {
    local word=${COMP_WORDS[COMP_CWORD]} before=${COMP_WORDS[COMP_CWORD - 1]} command='' it
    local options='-C --config --color --quiet --no-programs --help --version'
    local lints='bad-include bad-template bad-value cargo-accepts cargo-only cargo-refuses conflicting-cfg debug-assertions differs-from-cargo empty-path empty-wrapper ignored-cfg ignored-key invalid-cfg invalid-toml json-target mixed-types never-matches not-utf8 old-file-name overridden overridden-by-variable quiet-and-verbose quoted-triple readable-token removed-key shadowed-alias shadowed-file source-with-locations source-without-location token unknown-key unreadable unresolvable zero-jobs'
    for it in "${COMP_WORDS[@]:1:COMP_CWORD-1}"; do
        case $it in get | target | rustc | host | version | lint | help) command=${command:-$it} ;; esac
    done
    case $command in
        get) options+=' --format --merged --rules --show-origin --files --resolved --tokens' ;;
        target) options+=' --build-scripts --format --rules' ;;
        rustc | host) options+=' --rules' ;;
        lint) options+=' --deny --allow --target --compare --format' ;;
    esac
    case $before in
        -C) mapfile -t COMPREPLY < <(compgen -d -- "$word"); return ;;
        --config) mapfile -t COMPREPLY < <(compgen -f -- "$word"); return ;;
        --color) mapfile -t COMPREPLY < <(compgen -W 'auto always never' -- "$word"); return ;;
        --rules) mapfile -t COMPREPLY < <(compgen -W 'cargo crate' -- "$word"); return ;;
        --merged) mapfile -t COMPREPLY < <(compgen -W 'yes no' -- "$word"); return ;;
        --deny) mapfile -t COMPREPLY < <(compgen -W 'note warning error' -- "$word"); return ;;
        --allow) mapfile -t COMPREPLY < <(compgen -W "$lints" -- "$word"); return ;;
        --target) mapfile -t COMPREPLY < <(compgen -W "$(rustc --print target-list 2>/dev/null)" -- "$word"); return ;;
        --format)
            case $command in
                lint) mapfile -t COMPREPLY < <(compgen -W 'text json sarif' -- "$word") ;;
                target) mapfile -t COMPREPLY < <(compgen -W 'toml json' -- "$word") ;;
                *) mapfile -t COMPREPLY < <(compgen -W 'toml json json-value' -- "$word") ;;
            esac
            return ;;
    esac
    case $command-$word in
        *--*) mapfile -t COMPREPLY < <(compgen -W "$options" -- "$word") ;;
        - | -[a-z]* | help-*) mapfile -t COMPREPLY < <(compgen -W 'get target rustc host version lint help' -- "$word") ;;
        target-*) mapfile -t COMPREPLY < <(compgen -W "$(rustc --print target-list 2>/dev/null)" -- "$word") ;;
        lint-*) mapfile -t COMPREPLY < <(compgen -f -- "$word") ;;
    esac
}
complete -F _cargo_config2 cargo-config2

# `cargo config2 ..` is completed as `cargo-config2 ..`, and all else of cargo as before.
_cargo_or_config2() {
    local at=1
    while [[ ${COMP_WORDS[at]} == +* ]]; do at=$((at + 1)); done
    if [ "${COMP_WORDS[at]}" = config2 ] && [ "$COMP_CWORD" -gt "$at" ]; then
        COMP_WORDS=(cargo-config2 "${COMP_WORDS[@]:at + 1}")
        COMP_CWORD=$((COMP_CWORD - at))
        compopt +o bashdefault +o default 2>/dev/null
        _cargo_config2
        return
    fi
    if [ -z "${_cargo_without_config2-}" ]; then
        # what bash-completion has for cargo: of 2.12 and later, and of earlier ones
        complete -r cargo
        { _comp_load cargo || __load_completion cargo; } >/dev/null 2>&1
        _take_cargo
    fi
    if [ "$_cargo_without_config2" != none ]; then
        "$_cargo_without_config2" "$@"
    fi
}

# Takes the place of what completes cargo, and keeps its name.
_take_cargo() {
    local before
    before=$(complete -p cargo 2>/dev/null | sed -n 's/.* -F \([^ ]*\) .*/\1/p')
    [ "$before" = _cargo_or_config2 ] || _cargo_without_config2=${before:-${1-none}}
    complete -o bashdefault -o default -F _cargo_or_config2 cargo
}
_take_cargo ''
