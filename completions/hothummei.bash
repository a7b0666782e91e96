# Completions of hothummei for bash.
_hothummei() {
    local word=${COMP_WORDS[COMP_CWORD]} before=${COMP_WORDS[COMP_CWORD - 1]} command=${COMP_WORDS[1]}
    local commands='query check connect script pair relay pool gen secret passfile --help --version' words=
    if [ "$COMP_CWORD" = 1 ]; then
        words=$commands
    elif [ "$before" = --passfile ]; then
        mapfile -t COMPREPLY < <(compgen -f -- "$word")
        return
    elif [ "$command" = --help ] && [ "$COMP_CWORD" = 2 ]; then
        words='query check'
    elif [ "$command" = query ]; then
        words='--csv --json --table --passfile --timeout --help'
    elif [ "$command" = check ]; then
        words='--passfile --timeout --help'
    fi
    mapfile -t COMPREPLY < <(compgen -W "$words" -- "$word")
}
complete -F _hothummei hothummei
