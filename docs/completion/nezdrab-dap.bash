# Made by tools/make manual: completes the options and files of nezdrab-dap.
_nezdrab_dap() {
    local options='-h
--help
--version
--port
--socket
--program
--disassembler'
    local word=${COMP_WORDS[COMP_CWORD]} before=${COMP_WORDS[COMP_CWORD - 1]} IFS=$'\n'
    if [[ $word == = ]]; then
        word=
    elif [[ $before == = ]]; then
        before=${COMP_WORDS[COMP_CWORD - 2]}
    fi
    case $before in
    --program | --disassembler)
        COMPREPLY=($(compgen -f -- "$word"))
        ;;
    --port | --socket)
        COMPREPLY=()
        ;;
    *)
        if [[ $word == -* ]]; then
            COMPREPLY=($(compgen -W "$options" -- "$word"))
        else
            COMPREPLY=()
        fi
        ;;
    esac
}
complete -o filenames -F _nezdrab_dap nezdrab-dap
