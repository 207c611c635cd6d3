# Made by tools/make manual: completes the options and files of nezdrab-search.
_nezdrab_search() {
    local options='--core
--disk
--disk1
--disk2
--disk3
--disk4
--disk5
--disk6
--disk7
--tape
--units
--start
--stride
--lines
-h
--help
-V
--version'
    local word=${COMP_WORDS[COMP_CWORD]} before=${COMP_WORDS[COMP_CWORD - 1]} IFS=$'\n'
    if [[ $word == = ]]; then
        word=
    elif [[ $before == = ]]; then
        before=${COMP_WORDS[COMP_CWORD - 2]}
    fi
    case $before in
    --core | --disk | --disk1 | --disk2 | --disk3 | --disk4 | --disk5 | --disk6 | \
        --disk7 | --tape)
        COMPREPLY=($(compgen -f -- "$word"))
        ;;
    --units | --start | --stride)
        COMPREPLY=()
        ;;
    *)
        if [[ $word == -* ]]; then
            COMPREPLY=($(compgen -W "$options" -- "$word"))
        else
            COMPREPLY=()
        fi
        ;;
    esac
}
complete -o filenames -F _nezdrab_search nezdrab-search ./search
