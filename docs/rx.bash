# Completion of rx for bash: `source docs/rx.bash`.
_rx() {
    local word=${COMP_WORDS[COMP_CWORD]} before=${COMP_WORDS[COMP_CWORD-1]}
    if [ "$COMP_CWORD" -eq 1 ]; then
        COMPREPLY=($(compgen -W 'run asm replay convert standby resume serve diagnose drill frame unframe help --help --version' -- "$word"))
        return
    fi
    case "${COMP_WORDS[1]} $before" in
    'run --form')
        COMPREPLY=($(compgen -W 'text json' -- "$word"))
        return ;;
    'run --frame')
        COMPREPLY=($(compgen -W 'line length whole' -- "$word"))
        return ;;
    'run --env')
        COMPREPLY=($(compgen -W 'plain pad zero isolate delay all' -- "$word"))
        return ;;
    'run --guard')
        COMPREPLY=($(compgen -W 'off extent block' -- "$word"))
        return ;;
    'run --tell')
        COMPREPLY=($(compgen -W 'auto on off' -- "$word"))
        return ;;
    'run --durable')
        COMPREPLY=($(compgen -W 'on off' -- "$word"))
        return ;;
    'run --record-full')
        COMPREPLY=($(compgen -W 'end stop' -- "$word"))
        return ;;
    'resume --form')
        COMPREPLY=($(compgen -W 'text json' -- "$word"))
        return ;;
    'resume --env')
        COMPREPLY=($(compgen -W 'plain pad zero isolate delay all' -- "$word"))
        return ;;
    'resume --guard')
        COMPREPLY=($(compgen -W 'off extent block' -- "$word"))
        return ;;
    'resume --tell')
        COMPREPLY=($(compgen -W 'auto on off' -- "$word"))
        return ;;
    'resume --durable')
        COMPREPLY=($(compgen -W 'on off' -- "$word"))
        return ;;
    'resume --record-full')
        COMPREPLY=($(compgen -W 'end stop' -- "$word"))
        return ;;
    'serve --form')
        COMPREPLY=($(compgen -W 'text json' -- "$word"))
        return ;;
    'serve --frame')
        COMPREPLY=($(compgen -W 'line length whole' -- "$word"))
        return ;;
    'serve --env')
        COMPREPLY=($(compgen -W 'plain pad zero isolate delay all' -- "$word"))
        return ;;
    'serve --guard')
        COMPREPLY=($(compgen -W 'off extent block' -- "$word"))
        return ;;
    'serve --stop')
        COMPREPLY=($(compgen -W 'never input' -- "$word"))
        return ;;
    'serve --tell')
        COMPREPLY=($(compgen -W 'auto on off' -- "$word"))
        return ;;
    'serve --durable')
        COMPREPLY=($(compgen -W 'on off' -- "$word"))
        return ;;
    'serve --record-full')
        COMPREPLY=($(compgen -W 'end stop' -- "$word"))
        return ;;
    'diagnose --form')
        COMPREPLY=($(compgen -W 'text json' -- "$word"))
        return ;;
    'diagnose --frame')
        COMPREPLY=($(compgen -W 'line length whole' -- "$word"))
        return ;;
    'diagnose --env')
        COMPREPLY=($(compgen -W 'plain pad zero isolate delay all' -- "$word"))
        return ;;
    'diagnose --guard')
        COMPREPLY=($(compgen -W 'off extent block' -- "$word"))
        return ;;
    'diagnose --tell')
        COMPREPLY=($(compgen -W 'auto on off' -- "$word"))
        return ;;
    'diagnose --durable')
        COMPREPLY=($(compgen -W 'on off' -- "$word"))
        return ;;
    'diagnose --record-full')
        COMPREPLY=($(compgen -W 'end stop' -- "$word"))
        return ;;
    esac
    case "${COMP_WORDS[1]}" in
    run)
        [[ $word == -* ]] && COMPREPLY=($(compgen -W '--record --report --form --frame --window --hold --ring --every --frames --budget --keep --env --guard --tell --durable --record-full' -- "$word")) && return ;;
    standby)
        [[ $word == -* ]] && COMPREPLY=($(compgen -W '--record --budget' -- "$word")) && return ;;
    resume)
        [[ $word == -* ]] && COMPREPLY=($(compgen -W '--record --report --form --hold --ring --every --frames --budget --keep --env --guard --tell --durable --record-full' -- "$word")) && return ;;
    serve)
        [[ $word == -* ]] && COMPREPLY=($(compgen -W '--record --report --form --frame --window --ring --every --frames --budget --keep --env --guard --patience --at-once --stop --drain --tell --durable --record-full' -- "$word")) && return ;;
    diagnose)
        [[ $word == -* ]] && COMPREPLY=($(compgen -W '--record --report --diagnosis --form --frame --window --hold --ring --every --frames --budget --keep --env --guard --tell --durable --record-full' -- "$word")) && return ;;
    help)
        COMPREPLY=($(compgen -W 'run asm replay convert standby resume serve diagnose drill frame unframe' -- "$word"))
        return ;;
    esac
    COMPREPLY=($(compgen -f -- "$word"))
}
complete -o filenames -F _rx rx
