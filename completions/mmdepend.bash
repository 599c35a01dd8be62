# Completes the options of mmdepend and their words, in bash. Source this file, or put it into a folder of completions, such
# as /usr/share/bash-completion/completions, under the name mmdepend.

_mmdepend() {
    local word=${COMP_WORDS[COMP_CWORD]} before=${COMP_WORDS[COMP_CWORD - 1]} words='' list='' typed=''
    COMPREPLY=()
    # bash takes the = of --option=word as a word of its own.
    if [ "$word" = = ]; then
        word=
    elif [ "$before" = = ]; then
        before=${COMP_WORDS[COMP_CWORD - 2]}
    fi
    case $before in
        # begin options: made by `python3 -m tables`; change crates/mm_line or tables/words.py instead
        --only) typed="'|-'" ;;
        --report) list='all matrix counts usage citations proofs statements' ;;
        --form) words='1 2' ;;
        --against) ;;
        --workers) words='1 2 4 8 16 32 64' ;;
        --pieces) words='1 2 4 8 16 32 64' ;;
        *) if [[ $word == -* ]]; then words='--only --report --form --essential --open --against --and-report --workers --pieces -h --help -V --version'; fi ;;
        # end options
    esac
    if [ -n "$list" ]; then
        # The last of the names that commas separate.
        local named=
        case $word in *,*) named=${word%,*}, ;; esac
        mapfile -t COMPREPLY < <(compgen -P "$named" -W "$list" -- "${word##*,}")
    elif [ -n "$typed" ]; then
        if [[ "$typed" == "$word"* ]]; then COMPREPLY=("$typed"); fi
    elif [ -n "$words" ]; then
        mapfile -t COMPREPLY < <(compgen -W "$words" -- "$word")
    else
        mapfile -t COMPREPLY < <(compgen -f -- "$word")
        compopt -o filenames 2>/dev/null
    fi
}
complete -F _mmdepend mmdepend ./mmdepend
