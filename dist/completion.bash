# Completes the words of painless in bash:  . dist/completion.bash
_painless() {
    local word=${COMP_WORDS[COMP_CWORD]} words=("${COMP_WORDS[@]:1:COMP_CWORD-1}")
    COMPREPLY=()
    [ "${words[0]-}" != --explain ] || words=("${words[@]:1}")
    case ${#words[@]},${words[0]-} in
        0,) mapfile -t COMPREPLY < <(compgen -W 'eval check list run pipe gen why allow -e --explain --help --version' -- "$word") ;;
        1,eval | 1,check | 1,list | 1,run | 1,pipe | 1,why | 1,allow)
            compopt -o filenames 2>/dev/null
            mapfile -t COMPREPLY < <(compgen -f -- "$word")
            ;;
        2,eval | 2,check | 2,list | 2,run | 2,pipe | 2,gen | 2,allow | 2,-e | 3,why)
            [ "${COMP_WORDS[1]}" = --explain ] || mapfile -t COMPREPLY < <(compgen -W --explain -- "$word")
            ;;
    esac
}
complete -F _painless painless ./painless
