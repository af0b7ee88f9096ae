# Completes the arguments of wcplan in bash. Made by tools/man-pages.py of docs/WCPLAN.md.
_wcplan_keys() {
    local each
    for each in "${COMP_WORDS[@]:1:COMP_CWORD-1}"; do
        [[ $each == *.json && -r $each ]] || continue
        python3 -c 'import json, re, sys
resolve = json.load(open(sys.argv[1]))
for package in resolve["packages"]:
    name, _, version = package["name"].partition("@")
    for interface in package["interfaces"]:
        key = name + "/" + interface + ("@" + version if version else "")
        print(key if re.fullmatch("[A-Za-z0-9:/@.+-]+", key) else "")' "$each" 2>/dev/null
        return
    done
}
_wcplan_adapters() {
    local each before=
    for each in "${COMP_WORDS[@]:1:COMP_CWORD-1}"; do
        [[ $each != = ]] || continue
        if [[ $before == --adapt ]]; then
            each=${each##*/}
            each=${each%%[.=]*}
            [[ $each == *[!A-Za-z0-9_:-]* ]] || printf '%s=\n' "$each"
        fi
        before=$each
    done
}
_wcplan() {
    local word=${COMP_WORDS[COMP_CWORD]} what=(-f)
    case ${COMP_WORDS[COMP_CWORD - 1]} in
        --adapt) what=(-f) ;;
        --export) what=(-W "$(_wcplan_keys)") ;;
        --adapter-export) what=(-W "$(_wcplan_adapters)"); compopt -o nospace ;;
        --task-hook) what=(-W '') ;;
        --why) what=(-W "all \\\$root $(_wcplan_keys)") ;;
        --out) what=(-d) ;;
    esac
    [[ $word != -* ]] || what=(-W '--adapt --export --adapter-export --reject-legacy-names --realloc-via-memory-grow --task-hook --json --why --dot --imports --out --help --version')
    mapfile -t COMPREPLY < <(compgen "${what[@]}" -- "$word")
    ! declare -F __ltrim_colon_completions >/dev/null || __ltrim_colon_completions "$word"
}
complete -o filenames -F _wcplan wcplan
