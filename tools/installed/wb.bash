# Completions of the shell bash for wb, wb-live, ./wb and ./wb-live. In a checkout: . tools/installed/wb.bash
_wb() {
    local word=${COMP_WORDS[COMP_CWORD]} first=${COMP_WORDS[1]} words=''
    if [ "$COMP_CWORD" = 1 ]; then
        words='run check hex words host help --help --version'
        case ${COMP_WORDS[0]} in */*) words="$words --try --where --now --page --version --install" ;; esac
    else
        case $first in
            run) words='--workers --help' ;;
            hex | words) words='--keep-going --help' ;;
            host) words='--tuning --help' ;;
            check) words='--help' ;;
            help) words='run check hex words host' ;;
        esac
    fi
    mapfile -t COMPREPLY < <(compgen -W "$words" -- "$word")
}
_wb_live() {
    local word=${COMP_WORDS[COMP_CWORD]} before=${COMP_WORDS[COMP_CWORD - 1]}
    case $before in
        --record | --replay | --key | --new-key | --ca | --password-file) mapfile -t COMPREPLY < <(compgen -f -- "$word") ;;
        *) mapfile -t COMPREPLY < <(compgen -W '--help --lan --broker --password-file --ca --interface --listen --peer --ports --me --rate
            --session --key --open --new-key --tag --invite --page --web --guests --origin --new-address --no-web --terminal --no-terminal --browser --record
            --forget --replay --cells --lose --delay --twice --mix --teach --speed' -- "$word") ;;
    esac
}
complete -F _wb wb ./wb
complete -F _wb_live wb-live ./wb-live
