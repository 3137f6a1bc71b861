# Completions of pkder for bash, by tests/harness/completions.py, from the program's help.
_pkder() {
    local word=${COMP_WORDS[COMP_CWORD]} before=${COMP_WORDS[COMP_CWORD - 1]} words='' files=''
    # (bash takes --kind=key for three words)
    if [ "$before" = "=" ]; then before=${COMP_WORDS[COMP_CWORD - 2]}; fi
    if [ "$word" = "=" ]; then word=''; fi
    if [ "$COMP_CWORD" = 1 ]; then
        words="check explain show same normalise signed help --help --version"
    else
        case ${COMP_WORDS[1]}:$before in
            check:-k | check:--kind) words="key ec request public encrypted package" ;;
            check:--depth) words="" ;;
            check:--octets) words="" ;;
            check:--refuse) words="must tls" ;;
            check:--profile) words="tls" ;;
            check:--places) words="" ;;
            check:--files0-from) files=yes ;;
            check:*) words="--kind --any --depth --octets --quiet --notes --refuse --profile --json --places --files0-from --sum --each --help" files=yes ;;
            explain:-k | explain:--kind) words="key ec request public encrypted package" ;;
            explain:--depth) words="" ;;
            explain:--octets) words="" ;;
            explain:--profile) words="tls" ;;
            explain:--places) words="" ;;
            explain:--files0-from) files=yes ;;
            explain:*) words="--kind --any --depth --octets --all --brief --profile --json --places --files0-from --sum --each --help" files=yes ;;
            show:-k | show:--kind) words="key ec request public encrypted package" ;;
            show:--depth) words="" ;;
            show:--octets) words="" ;;
            show:--files0-from) files=yes ;;
            show:*) words="--kind --any --depth --octets --json --files0-from --sum --each --help" files=yes ;;
            same:-k | same:--kind) words="key ec request public encrypted package" ;;
            same:--depth) words="" ;;
            same:--octets) words="" ;;
            same:*) words="--kind --depth --octets --key --json --help" files=yes ;;
            normalise:-k | normalise:--kind) words="key ec request public encrypted package" ;;
            normalise:--depth) words="" ;;
            normalise:--octets) words="" ;;
            normalise:--to) files=yes ;;
            normalise:*) words="--kind --depth --octets --to --help" files=yes ;;
            signed:--part) words="info algorithm key signature received" ;;
            signed:-k | signed:--kind) words="" ;;
            signed:--depth) words="" ;;
            signed:--octets) words="" ;;
            signed:--to) files=yes ;;
            signed:*) words="--part --kind --depth --octets --to --help" files=yes ;;
            help:*) words="check explain show same normalise signed reasons" ;;
        esac
    fi
    mapfile -t COMPREPLY < <(compgen -W "$words" -- "$word"; [ -z "$files" ] || compgen -f -- "$word")
}
complete -o filenames -F _pkder pkder
