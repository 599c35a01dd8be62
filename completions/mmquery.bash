# Made by `python3 -m tables`; change the commands instead.
# Completes the commands and options of mmquery, in bash. Source this file, or put it
# into ~/.local/share/bash-completion/completions as `mmquery`.
_mmquery() {
    local word=${COMP_WORDS[COMP_CWORD]} before=${COMP_WORDS[COMP_CWORD - 1]} words=
    if [ "$word" = = ]; then word=; elif [ "$before" = = ]; then
        before=${COMP_WORDS[COMP_CWORD - 2]}; fi
    if [ "$COMP_CWORD" -eq 1 ]; then
        words='verify rests falls cites cited-by uncited why way-out frees spare repeats unneeded top sets within same compare review history gate chapters steps proofs contributors order unfinished discouraged mathboxes comments obsolete definitions equivalents search needs drop move graph picture page set-proof extract export cache --help --version'
    else
        case ${COMP_WORDS[1]}:$before in
            verify:--format | rests:--format | falls:--format | cites:--format | cited-by:--format | uncited:--format | why:--format | way-out:--format | frees:--format | spare:--format | repeats:--format | unneeded:--format | top:--format | sets:--format | within:--format | same:--format | compare:--format | history:--format | chapters:--format | steps:--format | proofs:--format | contributors:--format | order:--format | unfinished:--format | discouraged:--format | mathboxes:--format | comments:--format | obsolete:--format | equivalents:--format | search:--format | needs:--format | drop:--format | move:--format | export:--format | cache:--format) words='text tsv csv json' ;;
            review:--format) words='text tsv csv json markdown' ;;
            gate:--format) words='text log json github markdown' ;;
            definitions:--format) words='text tsv csv json github' ;;
            repeats:--how) words='same weaker instance' ;;
            chapters:--level) words='part chapter section subsection' ;;
            chapters:--by) words='rest share' ;;
            proofs:--by) words='steps depth bytes expanded' ;;
            chapters:--between) words='part chapter section subsection' ;;
            discouraged:--outside) words='part chapter section subsection' ;;
            needs:--as | graph:--as) words='dot graphml edges' ;;
            cache:cache) words='show clear' ;;
            *)
                case ${COMP_WORDS[1]}:$word in
                    verify:-*) words='--each --most --essential --open --format --no-cache --limit-time --limit-memory -h --help' ;;
                    rests:-*) words='--theorems --apart --only --all --axioms --ignore-definitions --essential --open --format --before --after --main --mathbox --under --like --not --among --not-among --contributor --since --until --no-cache --limit-time --limit-memory -h --help' ;;
                    falls:-*) words='--any-of --all-of --without --count --only --all --axioms --ignore-definitions --essential --open --format --before --after --main --mathbox --under --like --not --among --not-among --contributor --since --until --no-cache --limit-time --limit-memory -h --help' ;;
                    cites:-*) words='--on --essential --open --format --before --after --main --mathbox --under --like --not --among --not-among --contributor --since --until --no-cache --limit-time --limit-memory -h --help' ;;
                    cited-by:-*) words='--essential --open --format --before --after --main --mathbox --under --like --not --among --not-among --contributor --since --until --no-cache --limit-time --limit-memory -h --help' ;;
                    uncited:-*) words='--not-discouraged --outside-mathboxes --at-most --essential --open --format --before --after --main --mathbox --under --like --not --among --not-among --contributor --since --until --no-cache --limit-time --limit-memory -h --help' ;;
                    why:-*) words='--all --longest --unavoidable --only --essential --open --format --no-cache --limit-time --limit-memory -h --help' ;;
                    way-out:-*) words='--keep --keep-wrappers --essential --open --format --before --after --main --mathbox --under --like --not --among --not-among --contributor --since --until --no-cache --limit-time --limit-memory -h --help' ;;
                    frees:-*) words='--most --plan --given --keep --keep-wrappers --essential --open --format --before --after --main --mathbox --under --like --not --among --not-among --contributor --since --until --no-cache --limit-time --limit-memory -h --help' ;;
                    spare:-*) words='--all --shorter --new-steps --theorem --may-gain --may-gain-of --write --proof --only --open --jobs --cite-discouraged --cite-old --cite-mathboxes --change-discouraged --format --before --after --main --mathbox --under --like --not --among --not-among --contributor --since --until --no-cache --limit-time --limit-memory -h --help' ;;
                    repeats:-*) words='--only --open --kept --other-mathboxes --how --format --before --after --main --mathbox --under --like --not --among --not-among --contributor --since --until --no-cache --limit-time --limit-memory -h --help' ;;
                    unneeded:-*) words='--hypotheses --disjoint --symbols --through --open --format --before --after --main --mathbox --under --like --not --among --not-among --contributor --since --until --no-cache --limit-time --limit-memory -h --help' ;;
                    top:-*) words='--theorems --cited --below --outside-mathboxes --against --only --all --axioms --ignore-definitions --essential --open --format --before --after --main --mathbox --under --like --not --among --not-among --contributor --since --until --no-cache --limit-time --limit-memory -h --help' ;;
                    sets:-*) words='--together --only --all --axioms --ignore-definitions --essential --open --format --before --after --main --mathbox --under --like --not --among --not-among --contributor --since --until --no-cache --limit-time --limit-memory -h --help' ;;
                    within:-*) words='--list --only --all --axioms --ignore-definitions --essential --open --format --before --after --main --mathbox --under --like --not --among --not-among --contributor --since --until --no-cache --limit-time --limit-memory -h --help' ;;
                    same:-*) words='--only --all --axioms --ignore-definitions --essential --open --format --before --after --main --mathbox --under --like --not --among --not-among --contributor --since --until --no-cache --limit-time --limit-memory -h --help' ;;
                    compare:-*) words='--changed --only --all --axioms --ignore-definitions --essential --open --format --no-cache --limit-time --limit-memory -h --help' ;;
                    review:-*) words='--only --all --axioms --ignore-definitions --essential --open --format --no-cache --limit-time --limit-memory -h --help' ;;
                    history:-*) words='--of --faults --essential --open --format --no-cache --limit-time --limit-memory -h --help' ;;
                    gate:-*) words='--base --merge-base --config --config-of-new --summary --all --to-allow --format --no-cache --limit-time --limit-memory -h --help' ;;
                    chapters:-*) words='--level --by --most --no-empty --any --between --of --only --all --axioms --ignore-definitions --essential --open --format --no-cache --limit-time --limit-memory -h --help' ;;
                    steps:-*) words='--all --open --format --no-cache --limit-time --limit-memory -h --help' ;;
                    proofs:-*) words='--by --most --expanded --essential --open --format --before --after --main --mathbox --under --like --not --among --not-among --contributor --since --until --no-cache --limit-time --limit-memory -h --help' ;;
                    contributors:-*) words='--most --open --format --before --after --main --mathbox --under --like --not --among --not-among --contributor --since --until --no-cache --limit-time --limit-memory -h --help' ;;
                    order:-*) words='--theorems --columns --proofs --only --all --axioms --ignore-definitions --essential --open --format --before --after --main --mathbox --under --like --not --among --not-among --contributor --since --until --no-cache --limit-time --limit-memory -h --help' ;;
                    unfinished:-*) words='--essential --open --format --before --after --main --mathbox --under --like --not --among --not-among --contributor --since --until --no-cache --limit-time --limit-memory -h --help' ;;
                    discouraged:-*) words='--outside --essential --open --format --before --after --main --mathbox --under --like --not --among --not-among --contributor --since --until --no-cache --limit-time --limit-memory -h --help' ;;
                    mathboxes:-*) words='--of --ready --essential --open --format --before --after --main --mathbox --under --like --not --among --not-among --contributor --since --until --no-cache --limit-time --limit-memory -h --help' ;;
                    comments:-*) words='--open --format --before --after --main --mathbox --under --like --not --among --not-among --contributor --since --until --no-cache --limit-time --limit-memory -h --help' ;;
                    obsolete:-*) words='--due --essential --open --format --before --after --main --mathbox --under --like --not --among --not-among --contributor --since --until --no-cache --limit-time --limit-memory -h --help' ;;
                    definitions:-*) words='--trust --equality --basis --expand --without --essential --open --format --before --after --main --mathbox --under --like --not --among --not-among --contributor --since --until --no-cache --limit-time --limit-memory -h --help' ;;
                    equivalents:-*) words='--without --only --all --axioms --ignore-definitions --essential --open --format --no-cache --limit-time --limit-memory -h --help' ;;
                    search:-*) words='--given --not-given --conclusion --no-hypotheses --open --format --before --after --main --mathbox --under --like --not --among --not-among --contributor --since --until --no-cache --limit-time --limit-memory -h --help' ;;
                    needs:-*) words='--tree --as --open --format --before --after --main --mathbox --under --like --not --among --not-among --contributor --since --until --no-cache --limit-time --limit-memory -h --help' ;;
                    drop:-*) words='--under --write --essential --open --format --no-cache --limit-time --limit-memory -h --help' ;;
                    move:-*) words='--to --ready --open --format --before --after --main --mathbox --under --like --not --among --not-among --contributor --since --until --no-cache --limit-time --limit-memory -h --help' ;;
                    graph:-*) words='--as --depth --through --landmarks --essential --open --no-cache --limit-time --limit-memory -h --help' ;;
                    picture:-*) words='--png --svg --across --down --only --all --axioms --ignore-definitions --essential --open --no-cache --limit-time --limit-memory -h --help' ;;
                    page:-*) words='--only --title --against --watch --essential --open --no-cache --limit-time --limit-memory -h --help' ;;
                    set-proof:-*) words='--no-cache --limit-time --limit-memory -h --help' ;;
                    extract:-*) words='--list --no-cache --limit-time --limit-memory -h --help' ;;
                    export:-*) words='--sqlite --only --all --axioms --ignore-definitions --essential --open --format --no-cache --limit-time --limit-memory -h --help' ;;
                    cache:-*) words='--format --no-cache --limit-time --limit-memory -h --help' ;;
                esac
                ;;
        esac
    fi
    if [ -z "$words" ]; then
        mapfile -t COMPREPLY < <(compgen -f -- "$word")
        compopt -o filenames 2>/dev/null
        return
    fi
    mapfile -t COMPREPLY < <(compgen -W "$words" -- "$word")
}
complete -F _mmquery mmquery ./mmquery
