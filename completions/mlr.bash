# Completions of mlr for bash, made by tests/generated.
_mlr() {
    local word=${COMP_WORDS[COMP_CWORD]} verb= place words=
    local verbs=" altkv cat count count-distinct count-similar cut decimate fill-down fill-empty flatten gap grep group-by group-like gsub having-fields head join json-parse json-stringify label least-frequent merge-fields most-frequent nest nothing regularize rename reorder repeat reshape sec2gmt sec2gmtdate seqgen sort sort-within-records sparsify ssub stats1 step sub tac tail template top unflatten uniq unspace unsparsify "
    for ((place = 1; place < COMP_CWORD; place++)); do
        if [[ $verbs == *" ${COMP_WORDS[place]} "* && (-z $verb || ${COMP_WORDS[place - 1]} == then) ]]; then
            verb=${COMP_WORDS[place]}
        fi
    done
    case $verb in
        "") words="--allow-ragged-csv-input --barred --c2b --c2d --c2j --c2l --c2m --c2n --c2p --c2t --c2x --csv --dedupe-field-names --dkvp --dsl-turns --flatsep --from --fs --headerless-csv-output --help --hi --ho --icsv --idkvp --ifs --ijson --ijsonl --imd --implicit-csv-header --infer-none --infer-octal --inidx --io --ipprint --ips --itsv --ixtab --j2b --j2c --j2d --j2l --j2m --j2n --j2p --j2t --j2x --jlistwrap --json --jsonl --jvstack --l2b --l2c --l2d --l2j --l2m --l2n --l2p --l2t --l2x --nidx --no-auto-flatten --no-auto-unflatten --no-color --no-dedupe-field-names --no-jlistwrap --no-jvstack --ocsv --odkvp --ofs --ojson --ojsonl --omd --onidx --opprint --ops --otsv --oxtab --pass-comments --pass-comments-with --pprint --ps --quote-all --ragged --records-per-batch --serial --skip-comments --skip-comments-with --t2b --t2c --t2d --t2j --t2l --t2m --t2n --t2p --t2x --tsv --version --xtab -M -O -S -c -h -i -j -n -o -t $verbs" ;;
        cat) words="-n -N -g" ;;
        count) words="-g -n -o" ;;
        count-distinct) words="-f -n -o" ;;
        count-similar) words="-g -o" ;;
        cut) words="-f -o -x -r" ;;
        decimate) words="-n -b -e -g" ;;
        fill-down) words="-f -a" ;;
        fill-empty) words="-v -S" ;;
        flatten) words="-f -s" ;;
        gap) words="-n -g" ;;
        grep) words="-i -v" ;;
        gsub) words="-f -a" ;;
        having-fields) words="--at-least --at-most --which-are --all-defined --any-defined --all-matching --any-matching" ;;
        head) words="-n -g" ;;
        join) words="-f -j -l -r --np --ul --ur --lp --rp -i" ;;
        json-parse) words="-f" ;;
        json-stringify) words="-f" ;;
        least-frequent) words="-f -b -n -o" ;;
        merge-fields) words="-a -f -r -c -o -k" ;;
        most-frequent) words="-f -b -n -o" ;;
        nest) words="--explode --implode --values --pairs --across-records --across-fields --evar --ivar -f --nested-fs --nested-ps" ;;
        rename) words="-r -g" ;;
        reorder) words="-f -e" ;;
        repeat) words="-n -f" ;;
        reshape) words="-i -r -o -s" ;;
        seqgen) words="-f --start --stop --step" ;;
        sort) words="-f -r -nf -nr -c -cr" ;;
        sort-within-records) words="-r" ;;
        sparsify) words="-f" ;;
        ssub) words="-f -a" ;;
        stats1) words="-a -f -g" ;;
        step) words="-a -f -g" ;;
        sub) words="-f -a" ;;
        tail) words="-n -g" ;;
        template) words="-f --fill-with" ;;
        top) words="-f -n -g --min --max -a -o" ;;
        unflatten) words="-f -s" ;;
        uniq) words="-g -a -c -n" ;;
        unspace) words="-f -k -v" ;;
        unsparsify) words="--fill-with -f" ;;
    esac
    if [[ ${COMP_WORDS[COMP_CWORD - 1]} == then ]]; then
        words=$verbs
    elif [[ -n $verb ]]; then
        words="$words then"
    fi
    COMPREPLY=($(compgen -W "$words" -- "$word") $(compgen -f -- "$word"))
}
complete -o filenames -F _mlr mlr
