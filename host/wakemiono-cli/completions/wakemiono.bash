# Completion of the command wakemiono for bash.

_wakemiono() {
    local word=${COMP_WORDS[COMP_CWORD]} before=${COMP_WORDS[COMP_CWORD - 1]} choices
    # Of --kind=tag bash makes three words.
    if [[ $word == '=' ]]; then
        word=
    elif [[ $before == '=' ]]; then
        before=${COMP_WORDS[COMP_CWORD - 2]}
    fi
    local commands='list names name why hints metadata canon join same judge'
    COMPREPLY=()
    case $before in
    --kind) choices='module function type tag local field kept table memory global element data label' ;;
    # Files are what bash completes by itself where there are no other choices.
    -o | --beside) return ;;
    --format | --function | --local | --label | --type | --field | --tag | --table | --memory | --global | --element | --data | --kept)
        compopt +o default
        return
        ;;
    *)
        case $COMP_CWORD:${COMP_WORDS[1]} in
        1:*) choices="$commands help --help --version" ;;
        2:help) choices=$commands ;;
        *:list) choices='--json --help' ;;
        *:names) choices='--json --wide --kind --beside --help' ;;
        *:name) choices='--json --wide --module --function --local --label --type --field --tag --table --memory --global --element --data --kept --beside --help' ;;
        *:why) choices='--json --wide --function --local --help' ;;
        *:hints) choices='--json --help' ;;
        *:metadata) choices='--json --format --help' ;;
        *:canon) choices='--json --wide --old-hints --in-module -o --help' ;;
        *:join) choices='--json --wide -o --help' ;;
        *:same) choices='--json --wide --all --help' ;;
        *:judge) choices='--json --wide --help' ;;
        *) return ;;
        esac
        [[ $COMP_CWORD -eq 1 || ${COMP_WORDS[1]} == help || $word == -* ]] || return
        ;;
    esac
    mapfile -t COMPREPLY < <(compgen -W "$choices" -- "$word")
}

complete -o default -F _wakemiono wakemiono
