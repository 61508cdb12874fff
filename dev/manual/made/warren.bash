# completions of warren for bash, made by `python3 -m dev.manual` of the program's help

_warren() {
    local word=${COMP_WORDS[COMP_CWORD]} before=${COMP_WORDS[COMP_CWORD - 1]} command=${COMP_WORDS[1]}
    local options= files= values= places= place=0 it
    if ((COMP_CWORD == 1)); then
        mapfile -t COMPREPLY < <(compgen -W "check verify replay serve route help -h --help -V --version" -- "$word")
        return
    fi
    case $command in
        check) options='--out -h --help' files='--out' values='' places='1|2' ;;
        verify) options='-h --help' files='' values='' places='1|2|3' ;;
        replay) options='--definitions --guarantees --certificates -h --help' files='--definitions|--guarantees|--certificates' values='' places='1' ;;
        serve) options='--listen --turns --reload -h --help' files='' values='--listen|--turns|--reload' places='1|2|3' ;;
        route) options='-h --help' files='' values='' places='1' ;;
        help) ((COMP_CWORD == 2)) && mapfile -t COMPREPLY < <(compgen -W "check verify replay serve route help" -- "$word"); return ;;
        *) return ;;
    esac
    if [[ $word == -* ]]; then
        mapfile -t COMPREPLY < <(compgen -W "$options" -- "$word")
        return
    fi
    [[ $before == : || -n $values && $before =~ ^($values)$ ]] && return
    # which argument this is: options and their values are none, and bash parts an address at its colon
    for ((it = 2; it <= COMP_CWORD; it++)); do
        [[ ${COMP_WORDS[it]} == -* && $it != "$COMP_CWORD" ]] && continue
        [[ ${COMP_WORDS[it]} == : || ${COMP_WORDS[it - 1]} == : ]] && continue
        [[ -n $values$files && ${COMP_WORDS[it - 1]} =~ ^($values|$files)$ && ${COMP_WORDS[it - 1]} ]] && continue
        ((++place))
    done
    if [[ (-n $files && $before =~ ^($files)$) || $place =~ ^($places)$ ]]; then
        mapfile -t COMPREPLY < <(compgen -f -- "$word")
    fi
}
complete -o filenames -F _warren warren
