# Completion of furnacelime's command lines for bash: source this file.
_furnacelime() {
    local word=${COMP_WORDS[COMP_CWORD]} words=
    case $COMP_CWORD:${COMP_WORDS[1]} in
        1:*) words='rate tree trace table check follow draw batch exec drill jobs modes help' ;;
        2:trace) words='--met --by --by=wrap --repeat' ;;
        2:table) words='--repeat' ;;
        3:trace) [[ ${COMP_WORDS[2]} == --by ]] && words='wrap' ;;
        2:draw) words='--from --units' ;;
        3:draw) [[ ${COMP_WORDS[2]} == --from=* ]] && words='--units' ;;
        4:draw) [[ ${COMP_WORDS[2]} == --from ]] && words='--units' ;;
        2:exec) words='--met --window' ;;
    esac
    mapfile -t COMPREPLY < <(compgen -W "$words" -- "$word")
}
complete -o bashdefault -o default -F _furnacelime furnacelime ./furnacelime
