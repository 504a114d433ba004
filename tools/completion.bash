# Completion of the installed command `auc` in bash.
_auc() {
    local word=${COMP_WORDS[COMP_CWORD]} before=${COMP_WORDS[COMP_CWORD - 1]} form= at
    COMPREPLY=()
    for ((at = 1; at < COMP_CWORD; at++)); do
        case ${COMP_WORDS[at]} in
            --journal-dir) ((at++)) ;;
            run | serve | reserved | compact | vector | auts | load | install | --version | --help) form=${COMP_WORDS[at]} && break ;;
        esac
    done
    case $form:$before in
        :--journal-dir | install:*) compopt -o filenames && mapfile -t COMPREPLY < <(compgen -d -- "$word") ;;
        run:* | serve:*) compopt -o filenames && mapfile -t COMPREPLY < <(compgen -f -- "$word") ;;
        vector:*) ((COMP_CWORD - at == 6)) && mapfile -t COMPREPLY < <(compgen -W "autn" -- "$word") ;;
        :*) mapfile -t COMPREPLY < <(compgen -W "run serve reserved compact vector auts load install --journal-dir --progress --version --help" -- "$word") ;;
    esac
    if [[ $form:$before == install:install ]]; then
        mapfile -t -O "${#COMPREPLY[@]}" COMPREPLY < <(compgen -W "--remove" -- "$word")
    fi
}
complete -F _auc auc
