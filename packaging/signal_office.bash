# Completion of signal_office in bash, made by tests/house/words.py of what it says by --help.
_signal_office() {
    local word=${COMP_WORDS[COMP_CWORD]} before=${COMP_WORDS[COMP_CWORD - 1]}
    local options= others=none
    COMPREPLY=()
    if ((COMP_CWORD == 1)) || [[ ${COMP_WORDS[1]} == help ]]; then
        COMPREPLY=($(compgen -W "batch serve sheet overdue add list stock orders used work cabinet pages verify-file migrate backup import export edit abandon compare diagram page help --help --version" -- "$word"))
        return
    fi
    case ${COMP_WORDS[1]} in
        batch) options='--db --wait --help' ;;
        serve) options='--port --count --db --wait --help' ;;
        sheet) options='--db --wait --help' ;;
        overdue) options='--db --wait --first --csv --headings --help' ;;
        add) options='--db --wait --help' ;;
        list) options='--db --wait --csv --headings --help' ;;
        stock) options='--db --wait --csv --headings --help' ;;
        orders) options='--db --wait --by-age --csv --headings --help' ;;
        used) options='--db --wait --from --to --csv --headings --help' ;;
        work) options='--db --wait --from --to --csv --headings --help' ;;
        cabinet) options='--db --wait --help' ;;
        pages) options='--db --wait --day --help'; others=folders ;;
        verify-file) options='--explain --advise --padded --help'; others=files ;;
        migrate) options='--db --wait --help' ;;
        backup) options='--db --wait --force --help'; others=files ;;
        import) options='--db --wait --check --until --explain --padded --help'; others=files ;;
        export) options='--db --wait --draft --cabinet --all --help' ;;
        edit) options='--db --wait --clerk --replace --commit --revision --explain --advise --padded --help'; others=files ;;
        abandon) options='--db --wait --clerk --help' ;;
        compare) options='--db --wait --csv --explain --padded --help'; others=files ;;
        diagram) options='--db --wait --file --padded --help' ;;
        page) options='--db --wait --file --padded --help' ;;
    esac
    case $before in
        --db | --file) options=; others=files ;;
        --all) options=; others=folders ;;
        --by-age | --clerk | --count | --day | --first | --from | --port | --revision | --to | --until | --wait) options=; others=none ;;
    esac
    if [[ $word == -* && $options ]]; then
        COMPREPLY=($(compgen -W "$options" -- "$word"))
        return
    fi
    case $others in
        files) mapfile -t COMPREPLY < <(compgen -f -- "$word") ;;
        folders) mapfile -t COMPREPLY < <(compgen -d -- "$word") ;;
        none) COMPREPLY=($(compgen -W "$options" -- "$word")) ;;
    esac
    [[ $others == none ]] || compopt -o filenames 2> /dev/null
}
complete -F _signal_office signal_office
