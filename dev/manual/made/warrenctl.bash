# completions of warrenctl for bash, made by `python3 -m dev.manual` of the program's help

_warrenctl() {
    local word=${COMP_WORDS[COMP_CWORD]} before=${COMP_WORDS[COMP_CWORD - 1]} command=${COMP_WORDS[1]}
    local options= files= values= places= place=0 it
    if ((COMP_CWORD == 1)); then
        mapfile -t COMPREPLY < <(compgen -W "convert suggest unrouted why draw report audit split user depths ping drain fill reload close open metrics front help -h --help --version" -- "$word")
        return
    fi
    case $command in
        convert) options='-h --help --check --vhost --only --all --strict --junit' files='--junit' values='--vhost|--only' places='1|2' ;;
        suggest) options='-h --help --force --warren --alone' files='--warren' values='' places='1|2' ;;
        unrouted) options='-h --help --exchange --pattern --copies --warren --alone' files='--warren' values='--exchange|--pattern' places='1' ;;
        why) options='-h --help --certificates --only --warren --junit --with --alone --states' files='--certificates|--warren|--junit|--with' values='--only|--states' places='1|2|3' ;;
        draw) options='-h --help --guarantees --verdicts --only --svg' files='--guarantees|--verdicts|--svg' values='--only' places='1' ;;
        report) options='-h --help --out --warren --alone' files='--out|--warren' values='' places='1|2' ;;
        audit) options='-h --help --only --key' files='' values='--only|--key' places='1|2|3' ;;
        split) options='-h --help --parts --together --port' files='' values='--parts|--together|--port' places='1|2|3' ;;
        user) options='-h --help --remove --list' files='--list' values='' places='2' ;;
        depths) options='-h --help --password-file --once --prometheus --alarm' files='--password-file' values='--alarm' places='2' ;;
        ping) options='-h --help --password-file --hello --tls --seconds --within' files='--password-file' values='--seconds|--within' places='' ;;
        drain) options='-h --help --password-file --append' files='--password-file' values='' places='3' ;;
        fill) options='-h --help --password-file --queue --as-sent' files='--password-file' values='--queue' places='2' ;;
        reload) options='-h --help --look --password-file --mark --seconds --leave --kept --warren' files='--password-file|--kept|--warren' values='--look|--seconds' places='1|2' ;;
        close) options='-h --help --look --password-file --seconds' files='--password-file' values='--look|--seconds' places='1' ;;
        open) options='-h --help --look --password-file --seconds' files='--password-file' values='--look|--seconds' places='1' ;;
        metrics) options='-h --help --password-file --listen --errors --hand-on' files='--password-file|--errors' values='--listen' places='2' ;;
        front) options='-h --help --listen --to --certificate --key --metrics --heartbeat --most' files='--certificate|--key' values='--listen|--to|--metrics|--heartbeat|--most' places='1' ;;
        help) ((COMP_CWORD == 2)) && mapfile -t COMPREPLY < <(compgen -W "convert suggest unrouted why draw report audit split user depths ping drain fill reload close open metrics front help" -- "$word"); return ;;
        *) return ;;
    esac
    if [[ $word == -* ]]; then
        mapfile -t COMPREPLY < <(compgen -W "$options" -- "$word")
        return
    fi
    [[ $before == : || -n $values && $before =~ ^($values)$ ]] && return
    # which argument this is: options and their values are none, and bash parts an address at its colon
    for ((it = 2; it <= COMP_CWORD; it++)); do
        [[ ${COMP_WORDS[it]} == -* && $it != "$COMP_CWORD" ]] && continue
        [[ ${COMP_WORDS[it]} == : || ${COMP_WORDS[it - 1]} == : ]] && continue
        [[ -n $values$files && ${COMP_WORDS[it - 1]} =~ ^($values|$files)$ && ${COMP_WORDS[it - 1]} ]] && continue
        ((++place))
    done
    if [[ (-n $files && $before =~ ^($files)$) || $place =~ ^($places)$ ]]; then
        mapfile -t COMPREPLY < <(compgen -f -- "$word")
    fi
}
complete -o filenames -F _warrenctl warrenctl
