# Completions of dlog for bash: put `source dlog.bash` into ~/.bashrc.

# Puts the words that begin as the last one into the answer.
_dlog_words() {
    mapfile -t COMPREPLY < <(compgen -W "$1" -- "${COMP_WORDS[COMP_CWORD]}")
}

# The same for folders (-d) or files (-f), which bash then quotes.
_dlog_paths() {
    mapfile -t COMPREPLY < <(compgen "$1" -- "${COMP_WORDS[COMP_CWORD]}")
    compopt -o filenames 2>/dev/null
}

# The folder among the words, and whether the last word stands after it.
_dlog_folder() {
    local at=2 word
    folder=
    while [ "$at" -lt "$COMP_CWORD" ]; do
        word=${COMP_WORDS[at]}
        case $word in
            --wrap | --size | --sync-every | --head | --kind | --from | --most | -n | --last | --digests | --keep-bad) at=$((at + 1)) ;;
            -*) ;;
            *)
                folder=$word
                return
                ;;
        esac
        at=$((at + 1))
    done
}

_dlog() {
    local command=${COMP_WORDS[1]} before=${COMP_WORDS[COMP_CWORD - 1]} options= folder=
    if [ "$COMP_CWORD" -eq 1 ]; then
        _dlog_words 'append dump tail check digest list info repair run threads serve help --help --version'
        return
    fi
    case $command in
        append) options='--wrap --size --sync --sync-every --unsynced-rolls --head --escaped --raw --help' ;;
        dump) options='--kind --hex --raw --from --most --places --help' ;;
        tail) options='-n --last --follow --kind --hex --raw --help' ;;
        check) options='--json --digests --help' ;;
        list) options='--json --help' ;;
        digest) options='--help' ;;
        info) options='--kind --json --help' ;;
        repair) options='--kind --dry-run --keep-bad --yes --help' ;;
        run | threads | serve) options='--folder --blocks --unsynced-rolls --help' ;;
        help) options='append dump tail check digest list info repair run threads serve' ;;
    esac
    case $before in
        --kind)
            _dlog_words 'halt wrap'
            return
            ;;
        --folder)
            _dlog_paths -d
            return
            ;;
        --digests | --keep-bad)
            _dlog_paths -f
            return
            ;;
        --wrap | --size | --sync-every | --head | --from | --most | -n | --last | --blocks) return ;;
    esac
    case $command,${COMP_WORDS[COMP_CWORD]} in
        help,* | *,-*)
            _dlog_words "$options"
            return
            ;;
        run,* | threads,* | serve,*) return ;;
    esac
    _dlog_folder
    if [ -z "$folder" ]; then
        _dlog_paths -d
    elif [ -d "$folder" ]; then
        # The logs of the folder: a halt log by its file, and a wrap log by its index.
        _dlog_words "$(cd "$folder" && ls 2>/dev/null | sed -n 's/\.\(log\|idx\)$//p')"
    fi
}
complete -F _dlog dlog
