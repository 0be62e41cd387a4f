# Completion of spfc and its tools for bash.

_spfc() {
    local word=${COMP_WORDS[COMP_CWORD]} before=${COMP_WORDS[COMP_CWORD - 1]} tool=${COMP_WORDS[0]##*/}
    local commands='compile check deps compare join keep stale verify trial' options=
    local reading='--lookups --voids --exchanges' general='--require-ad --verbose --version --help'
    COMPREPLY=()
    case $before in
        --lookups | --voids | --exchanges | --size | --ttl | --label | --labels | --max-lost | --tries | --time | --jobs | -p | \
            --primary | --servers | --patience | --missing | --reload)
            return
            ;;
        -o | --policy | --holds | --kept | --key | --state | --config)
            compopt -o filenames
            mapfile -t COMPREPLY < <(compgen -f -- "$word")
            return
            ;;
    esac
    case $tool in
        spfc-gather)
            options="$reading --size --ttl --label -p -o --policy --holds --no-names --tries --time --jobs $general"
            ;;
        spfc-nightly)
            options="$reading --size --ttl -p --labels --kept --max-lost --tries --time --jobs $general"
            ;;
        spfc-publish)
            options="$reading --size -p --to --policy --key --primary --servers --reload --config --state --patience"
            options+=" --missing --undo --sweep --wait --tries --time --jobs --verbose --help"
            [ "$before" = --to ] && options='print update zone lexicon'
            ;;
        spfc-explain)
            [ "$COMP_CWORD" = 1 ] && options=$commands
            ;;
        *)
            case ${COMP_WORDS[1]} in
                "$word") [ "$COMP_CWORD" = 1 ] && options="$commands help version" ;;
                help) options=$commands ;;
                compile) options="$reading --size --ttl --label --trace" ;;
                verify) options="$reading --size" ;;
                join) options="$reading --weakest --size --ttl --label" ;;
                check | deps | keep) options=$reading ;;
                compare) options="$reading with" ;;
            esac
            ;;
    esac
    mapfile -t COMPREPLY < <(compgen -W "$options" -- "$word")
    if [ ${#COMPREPLY[@]} = 0 ]; then
        compopt -o filenames
        mapfile -t COMPREPLY < <(compgen -f -- "${word#*=}")
    fi
}

complete -F _spfc spfc spfc-gather spfc-nightly spfc-publish spfc-explain
