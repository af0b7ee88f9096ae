# Completes the arguments of wcwhy in bash. Made by tools/man-pages.py of docs/WCWHY.md.
_wcwhy() {
    local word=${COMP_WORDS[COMP_CWORD]} what=(-f)
    case ${COMP_WORDS[COMP_CWORD - 1]} in
        --adapt) what=(-f) ;;
        --adapter-export) what=(-W '') ;;
        --import) what=(-W '') ;;
        --func) what=(-W '') ;;
        --allow) what=(-f) ;;
        --core) what=(-W '') ;;
        --out) what=(-f) ;;
    esac
    [[ $word != -* ]] || what=(-W '--adapt --adapter-export --import --func --dot --json --imports --allow --core --out --help --version')
    mapfile -t COMPREPLY < <(compgen "${what[@]}" -- "$word")
}
complete -o filenames -F _wcwhy wcwhy
