# Made by tools/make manual: completes the options and files of nezdrab-disassemble.
_nezdrab_disassemble() {
    local options='--assemble
-h
--help
-V
--version'
    local word=${COMP_WORDS[COMP_CWORD]} before=${COMP_WORDS[COMP_CWORD - 1]} IFS=$'\n'
    if [[ $word == = ]]; then
        word=
    elif [[ $before == = ]]; then
        before=${COMP_WORDS[COMP_CWORD - 2]}
    fi
    case $before in
    *)
        if [[ $word == -* ]]; then
            COMPREPLY=($(compgen -W "$options" -- "$word"))
        else
            COMPREPLY=()
        fi
        ;;
    esac
}
complete -o filenames -F _nezdrab_disassemble nezdrab-disassemble ./disassemble
