# Completion of dbusfan's words in bash.
_dbusfan_options() {
    case $1 in
    match) echo --filter --owns --each --why --nearest --help ;;
    compile) echo --filter --help ;;
    run) echo --edition --each --trace --help ;;
    asm | check) echo --help ;;
    serve) echo --listen --guid --connections --until-closed --limit --print-address --session --nofork --allow-anonymous --allow-external --log --quiet --help ;;
    watch) echo --program --edition --filter --attach --monitor --invert --rules --of --calls --slow --patience --summary --top --why --hex --json --time --clock --full --names --count --seconds --read --write --help ;;
    esac
}

_dbusfan_names() {
    case $1 in
    1) echo match compile asm check run serve watch help --help --version ;;
    *) [ "$2" = help ] && echo match compile asm check run serve watch ;;
    esac
}

_dbusfan() {
    local word=${COMP_WORDS[COMP_CWORD]} command=${COMP_WORDS[1]} names
    case ${COMP_WORDS[COMP_CWORD - 1]} in
    --edition) names='1 2' ;;
    --listen) names='unix:path= unix:dir= unix:tmpdir= unix:abstract= unix:runtime=yes tcp:host=' ;;
    --guid | --connections | --filter | --of | --slow | --patience | --count | --seconds) return ;;
    --program | --read | --rules | --write | = | :) names= ;;
    *)
        names=$(_dbusfan_names "$COMP_CWORD" "$command")
        [ "$command $COMP_CWORD" = 'watch 2' ] && names='session system unix:path='
        case $word in -?*) names="$names $(_dbusfan_options "$command")" ;; esac
        ;;
    esac
    mapfile -t COMPREPLY < <(compgen -W "$names" -- "$word")
    case ${COMPREPLY[0]-} in *=) compopt -o nospace 2>/dev/null ;; esac
}

# where no word fits, files do
complete -o default -F _dbusfan dbusfan
