# Completes arguments of bayeux, bayeuxd, bayeuxd-run, bayeux_replay and bayeux_record in bash. The
# package installs this file. In a clone, run: . packaging/completion.bash

_bayeux_folder=$(cd "$(dirname "${BASH_SOURCE[0]}")" && pwd)

# Prints the flags in the manual page of program $1: those in the synopsis and in titles of paragraphs.
_bayeux_flags() {
    local page
    for page in "$_bayeux_folder/$1".[18] "$_bayeux_folder"/../../man/man[18]/"$1".[18].gz; do
        [[ -r $page ]] || continue
        zcat -f "$page" | sed 's/\\-/-/g' | awk '
            /^\.SH/ { is_synopsis = /SYNOPSIS/ }
            is_synopsis || is_title { print }
            { is_title = /^\.TP/ }' | grep -o -e '--[a-z][a-z-]*'
        return
    done
}

# Prints what can follow `bayeux $1` in the repository.
_bayeux_arguments() {
    case $1 in
        serve) _bayeux_flags bayeuxd ;;
        replay) _bayeux_flags bayeux_replay && _bayeux_flags bayeux_record ;;
        test)
            # shellcheck disable=SC2016
            "$_bayeux_folder/../bayeux" test --help | grep -o '`[a-z]*`' | tr -d '`' && ls "$_bayeux_folder/../crates"
            ;;
        prove) echo bayeuxd bayeux_replay bayeux_load ;;
        help) echo serve replay load test prove ;;
    esac
    case $1 in
        serve | replay | load) echo --proved --release ;;
        test) echo --proved ;;
    esac
}

# Completes word $2 of the command $1. $3: the word before it.
_bayeux() {
    local command=${1##*/} words
    case $command,$COMP_CWORD,$3 in
        *,--record | *,--seed-file)
            mapfile -t COMPREPLY < <(compgen -f -- "$2")
            return
            ;;
        bayeux,1,*) words="serve replay load test prove help" ;;
        bayeux,*) words=$(_bayeux_arguments "${COMP_WORDS[1]}") ;;
        bayeuxd-run,*) words=$(_bayeux_flags bayeuxd) ;;
        *) words=$(_bayeux_flags "$command") ;;
    esac
    mapfile -t COMPREPLY < <(compgen -W "$words" -- "$2" | sort -u)
}

# `filenames` adds a slash to a folder.
complete -o filenames -F _bayeux bayeux bayeuxd bayeuxd-run bayeux_replay bayeux_record
