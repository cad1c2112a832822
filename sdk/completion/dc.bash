# Completions of dc for bash. Made by sdk/manual from docs/dc.txt.
_dc_words() {
    local word=${COMP_WORDS[COMP_CWORD]} words='' files=0
    COMPREPLY=()
    if ((COMP_CWORD == 1)); then
        words='run check asm resume journal audit help --version --help'
    else
        case ${COMP_WORDS[1]} in
        run) files=1 ;;
        check) files=3 ;;
        asm) files=1 ;;
        resume) files=2 ;;
        journal) files=1 ;;
        audit) files=1 ;;
        help | -h | --help) ((COMP_CWORD > 2)) || words='run check asm resume journal audit' ;;
        esac
        if [[ $word == -* ]] && ((files)); then
            words=--help
        fi
    fi
    if [[ $words ]]; then
        mapfile -t COMPREPLY < <(compgen -W "$words" -- "$word")
    elif ((COMP_CWORD <= files + 1)); then
        compopt -o default
    fi
}
complete -F _dc_words dc discount
