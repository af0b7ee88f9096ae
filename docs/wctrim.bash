# Completes the arguments of wctrim in bash. Made by tools/man-pages.py of docs/WCTRIM.md.
_wctrim() {
    local word=${COMP_WORDS[COMP_CWORD]} what=(-f)
    [ "$COMP_CWORD" -gt 1 ] || what=(-W 'dedupe scan trim')
    case ${COMP_WORDS[COMP_CWORD - 1]} in
        --realloc) what=(-W '') ;;
        --page) what=(-W '0 16') ;;
    esac
    [[ $word != -* ]] || what=(-W '--realloc --page')
    mapfile -t COMPREPLY < <(compgen "${what[@]}" -- "$word")
}
complete -o filenames -F _wctrim wctrim
