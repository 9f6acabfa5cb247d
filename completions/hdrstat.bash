# Made by tools/completions from the help of hdrstat.
_hdrstat() {
    local word=${COMP_WORDS[COMP_CWORD]} before=${COMP_WORDS[COMP_CWORD - 1]} options= values=
    if [ "$word" = = ]; then
        word=
    elif [ "$before" = = ]; then
        before=${COMP_WORDS[COMP_CWORD - 2]}
    fi
    COMPREPLY=()
    if [ "$COMP_CWORD" -eq 1 ]; then
        before=
    fi
    case "${COMP_WORDS[1]} $before" in
    "summary -c" | "summary --column") values=' ' ;;
    "summary --json") values=' ' ;;
    "summary --match") values=' ' ;;
    "summary --count") values=' ' ;;
    "summary --delimiter") values=' ' ;;
    "summary --unit") values='ns us ms s' ;;
    "summary --from") values='numbers log' ;;
    "summary --where") values=' ' ;;
    "summary --by") values=' ' ;;
    "summary --tag") values=' ' ;;
    "summary --from-time") values=' ' ;;
    "summary --to-time") values=' ' ;;
    "summary -d" | "summary --digits") values=' ' ;;
    "summary --decimals") values=' ' ;;
    "summary --expected-interval") values=' ' ;;
    "summary -p" | "summary --percentiles") values=' ' ;;
    "summary --every") values=' ' ;;
    "summary -f" | "summary --format") values='table csv tsv json hgrm openmetrics' ;;
    "summary --output-unit") values='ns us ms s' ;;
    "check -c" | "check --column") values=' ' ;;
    "check --json") values=' ' ;;
    "check --match") values=' ' ;;
    "check --count") values=' ' ;;
    "check --delimiter") values=' ' ;;
    "check --unit") values='ns us ms s' ;;
    "check --from") values='numbers log' ;;
    "check --where") values=' ' ;;
    "check --by") values=' ' ;;
    "check --tag") values=' ' ;;
    "check --from-time") values=' ' ;;
    "check --to-time") values=' ' ;;
    "check -d" | "check --digits") values=' ' ;;
    "check --decimals") values=' ' ;;
    "check --expected-interval") values=' ' ;;
    "compare --with") values=' ' ;;
    "compare -c" | "compare --column") values=' ' ;;
    "compare --json") values=' ' ;;
    "compare --match") values=' ' ;;
    "compare --count") values=' ' ;;
    "compare --delimiter") values=' ' ;;
    "compare --unit") values='ns us ms s' ;;
    "compare --from") values='numbers log' ;;
    "compare --where") values=' ' ;;
    "compare --by") values=' ' ;;
    "compare --tag") values=' ' ;;
    "compare --from-time") values=' ' ;;
    "compare --to-time") values=' ' ;;
    "compare -d" | "compare --digits") values=' ' ;;
    "compare --decimals") values=' ' ;;
    "compare --expected-interval") values=' ' ;;
    "compare -p" | "compare --percentiles") values=' ' ;;
    "compare --fail") values=' ' ;;
    "compare -f" | "compare --format") values='table csv tsv json md' ;;
    "log --tag") values=' ' ;;
    "log -c" | "log --column") values=' ' ;;
    "log --json") values=' ' ;;
    "log --match") values=' ' ;;
    "log --count") values=' ' ;;
    "log --delimiter") values=' ' ;;
    "log --unit") values='ns us ms s' ;;
    "log --time") values=' ' ;;
    "log --time-unit") values='ns us ms s' ;;
    "log --every") values=' ' ;;
    "log --where") values=' ' ;;
    "log --by") values=' ' ;;
    "log -d" | "log --digits") values=' ' ;;
    "log --decimals") values=' ' ;;
    "log --expected-interval") values=' ' ;;
    "gather --tag") values=' ' ;;
    "gather --from-time") values=' ' ;;
    "gather --to-time") values=' ' ;;
    "convert --to") values='plain compressed' ;;
    "convert --tag") values=' ' ;;
    "convert --from-time") values=' ' ;;
    "convert --to-time") values=' ' ;;
    "page --unit") values='ns us ms s' ;;
    "page --title") values=' ' ;;
    "page --level") values=' ' ;;
    "page --tag") values=' ' ;;
    "page --from-time") values=' ' ;;
    "page --to-time") values=' ' ;;
    "page -c" | "page --column") values=' ' ;;
    "page --json") values=' ' ;;
    "page --count") values=' ' ;;
    "page --delimiter") values=' ' ;;
    "page --time") values=' ' ;;
    "page --time-unit") values='ns us ms s' ;;
    "page --every") values=' ' ;;
    "page --where") values=' ' ;;
    "page --by") values=' ' ;;
    "summary "?*) options='-c --column --json --match --count --delimiter --no-header --unit --skip-bad --from --where --by --by-tag --tag --from-time --to-time -d --digits --decimals --expected-interval -p --percentiles --ci --bars --every -f --format --output-unit -q --quiet -h --help' ;;
    "check "?*) options='-i --input --allow-empty -c --column --json --match --count --delimiter --no-header --unit --skip-bad --from --where --by --by-tag --tag --from-time --to-time -d --digits --decimals --expected-interval --ci -q --quiet -h --help' ;;
    "compare "?*) options='--with -c --column --json --match --count --delimiter --no-header --unit --skip-bad --from --where --by --by-tag --tag --from-time --to-time -d --digits --decimals --expected-interval -p --percentiles --fail -f --format -q --quiet -h --help' ;;
    "log "?*) options='--tag -q --quiet -h --help -c --column --json --match --count --delimiter --no-header --unit --skip-bad --time --time-unit --every --where --by -d --digits --decimals --expected-interval' ;;
    "gather "?*) options='--unsorted --tag-by-file -q --quiet --tag --from-time --to-time -h --help' ;;
    "convert "?*) options='--to -q --quiet --tag --from-time --to-time -h --help' ;;
    "page "?*) options='--unit --title --level --tag-by-file --align --tag --from-time --to-time -o --output --text --intervals -h --help -c --column --json --count --delimiter --no-header --skip-bad --time --time-unit --every --where --by' ;;
    "help "?*) values='summary check compare log gather convert page' ;;
    *) values='summary check compare log gather convert page help --help --version' ;;
    esac
    if [ -n "$values" ]; then
        COMPREPLY=($(compgen -W "$values" -- "$word"))
    elif [[ $word = -* ]]; then
        COMPREPLY=($(compgen -W "$options" -- "$word"))
    fi
}
complete -o default -F _hdrstat hdrstat
