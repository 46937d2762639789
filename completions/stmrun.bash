# Made by completions/make from crates/stm_arguments/src; to change it, change the command line there.
# shellcheck shell=bash
_stmrun() {
    local word="${COMP_WORDS[COMP_CWORD]}" before="${COMP_WORDS[COMP_CWORD-1]}" words=""
    COMPREPLY=()
    if [ "$COMP_CWORD" -eq 1 ]; then
        words="script check threads recipe explore audit show compile run store help --help --version"
    else
        case "${COMP_WORDS[1]} $before" in
        "script --store") compopt -o default; return ;;
        "script --format") words="lines json text svg html" ;;
        "script --width") words="" ;;
        "threads --workers") words="" ;;
        "threads --store") compopt -o default; return ;;
        "threads --repeat") words="" ;;
        "threads --format") words="lines text" ;;
        "explore --keeps") compopt -o default; return ;;
        "explore --level") words="SerializableSnapshot Serializable RepeatableReads ReadCommitted all" ;;
        "explore --budget") words="" ;;
        "explore --after") words="" ;;
        "explore --format") words="lines text" ;;
        "explore --width") words="" ;;
        "audit --format") words="lines text" ;;
        "run --store") compopt -o default; return ;;
        "run --level") words="SerializableSnapshot Serializable RepeatableReads ReadCommitted" ;;
        "run --attempts") words="" ;;
        "store --format") words="lines json text" ;;
        "store --at") words="" ;;
        "store --since") words="" ;;
        "store --key") words="" ;;
        "store --range") words="" ;;
        *)
            case "${COMP_WORDS[1]}" in
            script) case "$word" in -*) ;; *) compopt -o default; return ;; esac; words="--store --format --width --explain --explain=never --help" ;;
            check) case "$word" in -*) ;; *) compopt -o default; return ;; esac; words="--whole --explain --explain=never --help" ;;
            threads) case "$word" in -*) ;; *) compopt -o default; return ;; esac; words="--workers --store --ends --repeat --format --explain --explain=never --help" ;;
            recipe) words="transfer deposit enqueue dequeue reserve_slot release_slot --help" ;;
            explore) case "$word" in -*) ;; *) compopt -o default; return ;; esac; words="--keeps --level --budget --after --witness --serial --strict --format --width --explain --explain=never --help" ;;
            audit) case "$word" in -*) ;; *) compopt -o default; return ;; esac; words="--format --explain --explain=never --help" ;;
            show) case "$word" in -*) ;; *) compopt -o default; return ;; esac; words="--program --explain --explain=never --help" ;;
            compile) case "$word" in -*) ;; *) compopt -o default; return ;; esac; words="--explain --explain=never --help" ;;
            run) case "$word" in -*) ;; *) compopt -o default; return ;; esac; words="--store --level --attempts --explain --explain=never --help" ;;
            store) case "$word" in -*) ;; *) compopt -o default; return ;; esac; words="--format --check --compact --at --since --key --range --help" ;;
            help) words="script check threads recipe explore audit show compile run store language stm source formats causes" ;;
            esac ;;
        esac
    fi
    mapfile -t COMPREPLY < <(compgen -W "$words" -- "$word")
}
complete -F _stmrun stmrun ./stmrun
