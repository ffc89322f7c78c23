# Completions of katara for bash: commands, their options, and files.
_katara() {
    local word=${COMP_WORDS[COMP_CWORD]} before=${COMP_WORDS[COMP_CWORD - 1]} options='' chosen='' left='' own='' kind
    COMPREPLY=()
    if [ "$COMP_CWORD" = 1 ]; then
        # (the words of the launcher in a checkout)
        [ ! -e "${COMP_WORDS[0]%/*}/crates.txt" ] || own="install release --proved --unproved"
        mapfile -t COMPREPLY < <(compgen -W "find prove synth audit list check migrate run deltas model converge node-new node-step node-ask node-share node-difference node-take sample picture explain emit $own" -- "$word")
        return
    fi
    # (bash takes `--kinds=set` for three words)
    [ "$before" != = ] || before=${COMP_WORDS[COMP_CWORD - 2]}
    [ "$word" != = ] || word=
    case $before in
        --kinds)
            [[ $word != *,* ]] || chosen=${word%,*},
            for kind in cell table set tally tallies; do [[ ,$chosen == *,"$kind",* ]] || left+="$kind "; done
            mapfile -t COMPREPLY < <(compgen -P "$chosen" -W "$left" -- "${word##*,}")
            return
            ;;
        --language)
            mapfile -t COMPREPLY < <(compgen -W "ts js python rust go" -- "$word")
            return
            ;;
        --out)
            compopt -o filenames 2>/dev/null
            mapfile -t COMPREPLY < <(compgen -d -- "$word")
            return
            ;;
        --size | --effort | --designs | --replica | --lines) return ;;
    esac
    case ${COMP_WORDS[1]} in
        find) options="--effort --designs" ;;
        prove) options="--effort" ;;
        synth | audit) options="--size --effort --designs --kinds" ;;
        list) options="--size --designs --kinds" ;;
        node-new | node-share) options="--replica" ;;
        sample) options="--lines" ;;
        picture) options="--text --report" ;;
        explain) options="--markdown" ;;
        emit) options="--language --package --out" ;;
    esac
    case $word in
        -*) mapfile -t COMPREPLY < <(compgen -W "$options" -- "$word") ;;
        *)
            [ "${COMP_WORDS[1]}" != sample ] || return
            compopt -o filenames 2>/dev/null
            mapfile -t COMPREPLY < <(compgen -f -- "$word")
            ;;
    esac
}
complete -F _katara katara
