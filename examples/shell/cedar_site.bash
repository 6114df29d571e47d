# made by tools/docs/command_line.py
_cedar_site() {
    local word=${COMP_WORDS[COMP_CWORD]} before=${COMP_WORDS[COMP_CWORD - 1]} options=
    if [ "$COMP_CWORD" = 1 ]; then
        COMPREPLY=($(compgen -W "check decide load serve pull exchange merge drill explain --help --version" -- "$word"))
        return
    fi
    case ${COMP_WORDS[1]} in
        check) options="--schema --explain --help" ;;
        decide) options="--schema --policies --entities --request --explain --help" ;;
        load) options="--schema --site --policies --entities --state --explain --help" ;;
        serve) options="--schema --site --listen --state --connections --clients --idle --log --explain --help" ;;
        pull) options="--schema --site --from --state --help" ;;
        exchange) options="--schema --between --and --help" ;;
        merge) options="--schema --explain --help" ;;
        drill) options="--schema --sites --help" ;;
        explain) options="--schema --entities --request --help" ;;
    esac
    case $before in --and|--between|--clients|--connections|--from|--idle|--listen|--site|--sites) return ;; esac
    case $word in
        -*) COMPREPLY=($(compgen -W "$options" -- "$word")) ;;
        *) COMPREPLY=($(compgen -f -- "$word")) ;;
    esac
}
complete -o filenames -F _cedar_site cedar_site
