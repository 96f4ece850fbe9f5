# Completions of sarif_gate for bash: source this file, or put it into the folder of completions
# as sarif_gate. Made by tools/option-pages.

_sarif_gate() {
    local word=${COMP_WORDS[COMP_CWORD]} before=${COMP_WORDS[COMP_CWORD - 1]}
    # readline treats = as a word of its own, as in --max=3
    if [[ $word == = ]]; then
        word=
    elif [[ $before == = ]]; then
        before=${COMP_WORDS[COMP_CWORD - 2]}
    fi
    COMPREPLY=()
    case $before in
    --fail-on)
        mapfile -t COMPREPLY < <(compgen -W 'error warning note none' -- "$word")
        return
        ;;
    --diff-scope)
        mapfile -t COMPREPLY < <(compgen -W 'lines files' -- "$word")
        return
        ;;
    --today | --ignore-fingerprint | --states | --max | --matching | --root | --show | --link | --reason | --until | --at | --rule | --workers)
        return
        ;;
    esac
    if [[ $word == -* ]]; then
        mapfile -t COMPREPLY < <(compgen -W '--baseline --suppress --diff --today --require-success
            --allow-external-properties --ignore-fingerprint --fail-on --states --max
            --diff-scope --policy --matching --once --out --root --show --link --text
            --github --markdown --gitlab --html --junit --azure --unused --accept --prune
            --reason --until --at --rule --adopt --suppress-out --known --workers --explain
            --help -h --version -V' -- "$word")
        return
    fi
    if [[ $word == @* ]]; then
        mapfile -t COMPREPLY < <(compgen -f -P @ -- "${word#@}")
        return
    fi
    compopt -o filenames 2>/dev/null
    mapfile -t COMPREPLY < <(compgen -f -- "$word")
}

complete -F _sarif_gate sarif_gate
