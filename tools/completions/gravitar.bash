# bash completion for gravitar:  . gravitar.bash
_gravitar() {
    local word=${COMP_WORDS[COMP_CWORD]} before=${COMP_WORDS[COMP_CWORD - 1]} options= names=2
    COMPREPLY=()
    if [ "$COMP_CWORD" = 1 ]; then
        COMPREPLY=($(compgen -W "run asm debug show soak pcm frames seek profile" -- "$word"))
        return
    fi
    case $before in
        --state | --earom | --save) COMPREPLY=($(compgen -f -- "$word")); return ;;
        --until | --cuts) return ;;
    esac
    case ${COMP_WORDS[1]} in
        run) options="--state --earom --until --cuts --save --cost --timers" ;;
        debug) names=3 options="--state --earom --timers" ;;
        pcm | seek) names=3 options="--state --earom --until --timers" ;;
        frames | profile) options="--state --earom --until --timers" ;;
        asm) names=3 ;;
        show) names=1 ;;
        *) return ;;
    esac
    # The names come first. The third one of pcm and seek is a number.
    if [ "$COMP_CWORD" -le $((names + 1)) ]; then
        case ${COMP_WORDS[1]}$COMP_CWORD in pcm4 | seek4) return ;; esac
        COMPREPLY=($(compgen -f -- "$word"))
        return
    fi
    local option
    for option in $options; do
        [[ " ${COMP_WORDS[*]:2:COMP_CWORD-2} " == *" $option "* ]] || COMPREPLY+=($(compgen -W "$option" -- "$word"))
    done
}
complete -o filenames -F _gravitar gravitar
