# Made by tools/make manual: completes the options and files of nezdrab-explore.
_nezdrab_explore() {
    local options='-h
--help
--core
--disk
--disk1
--disk2
--disk3
--disk4
--disk5
--disk6
--disk7
--tape
--units
--start
--stride
--version
--echo
--sweep
--matters
--program
--disassembler
--resume
--journal
--no-journal'
    local word=${COMP_WORDS[COMP_CWORD]} before=${COMP_WORDS[COMP_CWORD - 1]} IFS=$'\n'
    if [[ $word == = ]]; then
        word=
    elif [[ $before == = ]]; then
        before=${COMP_WORDS[COMP_CWORD - 2]}
    fi
    case $before in
    --core | --disk | --disk1 | --disk2 | --disk3 | --disk4 | --disk5 | --disk6 | \
        --disk7 | --tape | --program | --disassembler | --resume | --journal)
        COMPREPLY=($(compgen -f -- "$word"))
        ;;
    --units | --start | --stride | --sweep | --matters)
        COMPREPLY=()
        ;;
    *)
        if [[ $word == -* ]]; then
            COMPREPLY=($(compgen -W "$options" -- "$word"))
        else
            COMPREPLY=($(compgen -f -X '!*.session' -- "$word"; compgen -d -- "$word"))
        fi
        ;;
    esac
}
complete -o filenames -F _nezdrab_explore nezdrab-explore ./explore
