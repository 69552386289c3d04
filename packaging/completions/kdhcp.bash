# Bash completion for kdhcp. Copy this file to /usr/share/bash-completion/completions/kdhcp, or source it.

# Completes from a list of words.
_kdhcp_words() {
    mapfile -t COMPREPLY < <(compgen -W "$1" -- "$2")
}

# Completes paths: `-f` files and folders, `-d` only folders.
_kdhcp_paths() {
    mapfile -t COMPREPLY < <(compgen "$1" -- "$2")
    compopt -o filenames 2> /dev/null
}

_kdhcp() {
    local current=${COMP_WORDS[COMP_CWORD]} option=${COMP_WORDS[COMP_CWORD - 1]} command="" word
    local files="--config --kea --server-address --token-dir --store"
    COMPREPLY=()
    # bash splits `--config=F` into three words.
    if [[ $current == = ]]; then
        current=""
    elif [[ $option == = ]]; then
        option=${COMP_WORDS[COMP_CWORD - 2]}
    fi
    for word in "${COMP_WORDS[@]:1:COMP_CWORD - 1}"; do
        case $word in
            show | expr | compile | verify | eval | replay | serve | leases | pools | why | import | events | test | check | help) command=$word && break ;;
            --) return ;;
        esac
    done
    if [[ -z $command ]]; then
        _kdhcp_words "show expr compile verify eval replay serve leases pools why import events test check help -h --help -V --version" "$current"
        return
    fi
    case $command:$option in
        *:--config | *:--kea | *:--store | serve:--record)
            _kdhcp_paths -f "$current"
            return
            ;;
        *:--token-dir)
            _kdhcp_paths -d "$current"
            return
            ;;
        serve:--bind | check:--bind) _kdhcp_words "0.0.0.0 127.0.0.1" "$current" && return ;;
        serve:--port | check:--port) _kdhcp_words "67" "$current" && return ;;
        serve:--client-port) _kdhcp_words "68" "$current" && return ;;
        serve:--count) _kdhcp_words "18446744073709551615" "$current" && return ;;
        serve:--max-ahead | check:--max-ahead) _kdhcp_words "3600" "$current" && return ;;
        *:--server-address | serve:--broadcast-as | events:--mac | events:--address | replay:--why) return ;;
        leases:--at | pools:--at | why:--at) _kdhcp_words "$(date +%s)" "$current" && return ;;
    esac
    case $command in
        help) _kdhcp_words "show expr compile verify eval replay serve leases pools why import events test check" "$current" ;;
        eval) _kdhcp_words "--text -h --help" "$current" ;;
        show) _kdhcp_words "--names -h --help" "$current" ;;
        replay) _kdhcp_words "$files --why -h --help" "$current" ;;
        leases) _kdhcp_words "$files --live --at -h --help" "$current" ;;
        pools) _kdhcp_words "$files --live --at --prometheus -h --help" "$current" ;;
        why) _kdhcp_words "$files --live --at -h --help" "$current" ;;
        events) _kdhcp_words "--mac --address -h --help" "$current" ;;
        test) _kdhcp_words "--config --kea --server-address --token-dir -h --help" "$current" ;;
        check) _kdhcp_words "$files --bind --port --max-ahead -h --help" "$current" ;;
        import) _kdhcp_words "--store -h --help" "$current" ;;
        serve)
            _kdhcp_words "$files --bind --port --client-port --count --broadcast-as --mirror --record --max-ahead -h --help" "$current"
            ;;
        *) _kdhcp_words "-h --help" "$current" ;;
    esac
}

complete -F _kdhcp kdhcp ./kdhcp
