# Completion for bash: `source tools/editor/venice.bash`, or put the file into ~/.local/share/bash-completion/completions/venice
# It completes the commands, and behind them files by their endings and numbers that are often wanted.

# The words of a command, one for each place behind it.
_venice_words() {
    case $1 in
        eval) echo PROGRAM INPUTS ;;
        check) echo PROGRAM SPAD ;;
        explain) echo PROGRAM ;;
        run) echo PROGRAM INPUTS IMAGE LANES SPAD GRANTS ;;
        build) echo PROGRAM IMAGE SPAD ;;
        asm) echo TEXT IMAGE ;;
        disasm) echo IMAGE ;;
        exec) echo IMAGE INPUTS LANES SPAD BUDGET GRANTS ;;
    esac
}

# Files with an ending, and folders.
_venice_files() {
    local word
    compopt -o filenames 2>/dev/null
    while IFS= read -r word; do COMPREPLY+=("$word"); done < <(compgen -f -X "!*.$1" -- "$2"; compgen -d -- "$2")
}

_venice() {
    local word=${COMP_WORDS[COMP_CWORD]} commands="eval check explain run build asm disasm exec" words
    COMPREPLY=()
    if [ "$COMP_CWORD" = 1 ]; then
        case ${COMP_WORDS[0]} in *ven) commands+=" help" ;; esac
        COMPREPLY=($(compgen -W "$commands" -- "$word"))
        return
    fi
    if [ "${COMP_WORDS[1]}" = help ]; then
        [ "$COMP_CWORD" = 2 ] && COMPREPLY=($(compgen -W "$commands" -- "$word"))
        return
    fi
    words=($(_venice_words "${COMP_WORDS[1]}"))
    case ${words[COMP_CWORD - 2]-} in
        PROGRAM) _venice_files ven "$word" ;;
        INPUTS) _venice_files arrays "$word" ;;
        TEXT) _venice_files asm "$word" ;;
        IMAGE) _venice_files image "$word" ;;
        GRANTS) _venice_files grants "$word" ;;
        LANES) COMPREPLY=($(compgen -W "1 2 3 4" -- "$word")) ;;
        SPAD) COMPREPLY=($(compgen -W "64 256 1024 4096 16384 65536 1048576" -- "$word")) ;;
        BUDGET) COMPREPLY=($(compgen -W "1000 1000000 1000000000" -- "$word")) ;;
    esac
}

complete -F _venice venice ./venice ven tools/ven why tools/why
