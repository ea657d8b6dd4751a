# Completion of `silc` for bash: source this file, or put it into a folder of bash-completion under the name `silc`.

# made by tools/completions
_silc_words='run eval compile sim schedule list demo stages pipe frame net place same explain check draw design ranges values noise explore plan link rows batch assemble compare rom vcd verilog cosimulate cost synthesize board fuzz show build help'
_silc_forms='run *.sil *.toml * *
eval *.sil * *
compile *.sil *.toml *
sim *.mic * *
schedule *.sil *.toml
list *.mic
demo - -
stages *.sil *.toml -
pipe *.sil *.toml - * *
frame *.sil *.toml - - - *
net *.toml * *
explain run|eval|compile|sim|schedule|list|demo|stages|pipe|frame|net|place
check *.sil
draw datapath *.toml *.sil
draw schedule * *.toml *.sil
draw beside * - *.toml
draw unfolded * *.toml
draw lifetimes * *.toml
draw response * - - ...
draw words * - ...
draw tradeoff *.csv
draw crates *
draw net *.toml
draw docs
design sos * ...
design fir * ...
design iir - - - - - ...
design fir kaiser - - - ...
design fir remez - - - - ...
design bands ...
design crossover - - - - ...
design cic - -
design halfband down up - -
ranges *.sil *
ranges *.sil
values *.sil * - ...
noise *.sil *
noise *.sil
explore *.sil *
plan - * *.sil *.toml
plan - ...
link *.sil - *
link - *
link *
link - ...
rows from-wav *.wav -
rows to-wav * - - *.wav
batch *.sil / *
batch *.mic / *
batch *.toml / *
assemble *.listing *
compare *.sil *.mic *.toml
rom *.mic
vcd *.mic *.toml * * - -
verilog *.mic /
verilog *.sil *.toml /
verilog *.toml /
cosimulate *.mic *
cosimulate *.sil *.toml *
cosimulate *.toml *
cost *.sil *.toml
synthesize *.mic
synthesize *.toml
board - *.mic /
fuzz sources|datapaths|microcode|samples|damaged|all - -
place *.sil *.toml * *
place pipe *.sil *.toml * - * *
same *.sil *.mic
show tokens|tree|text|names|elements|types|graph *.sil
show origins *.sil *.toml
show values *.sil *
show manifests|words *
show image *.mic
show guarded *.sil *.toml -
show trace *.mic * - - -
show trace *.sil *.toml - * - - -
show datapath *.toml
show rows - *
show repeat - - *
show repeat assign|plan|stages-S|allot|assemble - *.sil *.toml'
_silc_options='explain --datapath=*.toml --edits --json --library=/ --page --place=-
check --all --library=/ --warn
draw --check --db=- --folder=/ --force --frequencies=- --library=/ --out=*.svg --range=- --rate=-
design --attenuation=- --band=- --dither=- --edge=- --force --form=df1|df2t|lattice --gains=- --input=- --limit --live --norm=l1|l2|peak|none --order=up|down|given --out=* --rate=- --ripple=- --rounding=nearest|down|zero --seconds=- --serial --shape=- --signal=- --single --stereo --taps=- --turn=- --weights=- --width=-
ranges --all --element=- --force --json --library=/ --picture=* --seconds=- --worst --worst-input=* --wraps=-
values --json --library=/
noise --against=* --force --impulse=- --library=/ --picture=* --zero-input=-
explore --against=* --area=ice40|xilinx|ecp5 --best=- --best-plans=- --clock=- --dsp --force --jobs=- --json --library=/ --out=- --pool --samples=* --sshlogin=- --stages=-
plan --datapath=* --force --period=- --registers --roomy --seconds=- --seed=- --solver=- --stages=- --table
link --check=*.sil --force --library=/ --pages --test --where=-
rows --bits=16|24|32 --columns=- --force
batch --force --jobs=- --sshlogin=-
assemble --force --listing=*.mic --version=1|2
compare --force --rows=- --samples=* --seeds=-
rom --c --force --intel --map --name=- --out=* --readmemh
vcd --force
verilog --datapath=*.toml --force --full --large --name=- --stages=-
cosimulate --datapath=*.toml --force --full --stages=- --vcd=* --wait=- --with=icarus|verilator
cost --json --library=/
synthesize --datapath=*.toml --dsp --for=ice40|xilinx|ecp5 --full --json --large --no-restart --part=up5k|hx8k --rate=- --route
board --baud=- --bits=- --build --control=- --datapath=*.toml --force --large --name=- --output=- --rate=- --samples=* --slave
fuzz --all-or-none --case=- --jobs=-'
# end

# Offers what a kind of word may be: nothing, a folder, a file, a file with this ending, or one of some words.
_silc_offer() {
    local kind=$1 word=$2 line
    case $kind in
        '' | -) return ;;
        /) kind=(-d) ;;
        '*') kind=(-f) ;;
        '*.'*) kind=(-f -X "!$kind") ;;
        *) kind=(-W "${kind//|/ }") ;;
    esac
    while IFS= read -r line; do
        COMPREPLY+=("$line")
    done < <(compgen "${kind[@]}" -- "$word"; [[ ${kind[1]} != -X ]] || compgen -d -- "$word")
    [[ ${kind[0]} == -W ]] || compopt -o filenames 2>/dev/null
}

# The words of the command that is completed and of what stands before the cursor, but for options and their values: the
# kind of the option's value where the cursor stands at one is `value`.
_silc_read() {
    local i option
    local -a options=()
    for ((i = 2; i < COMP_CWORD; i++)); do
        if [[ -n $value ]]; then
            value=''
        elif [[ ${COMP_WORDS[i]} == -?* ]]; then
            while read -r -a options; do
                for option in "${options[@]}"; do
                    [[ ${options[0]} != "$command" || $option != "${COMP_WORDS[i]}="* ]] || value=${option#*=}
                done
            done <<<"$_silc_options"
        elif [[ $command == explain ]]; then
            command=${COMP_WORDS[i]}
        else
            given+=("${COMP_WORDS[i]}")
        fi
    done
}

# Offers what may stand at the place behind the words that are given, by each form that begins as they do.
_silc_offer_place() {
    local i place offered=' '
    local -a form=()
    while read -r -a form; do
        [[ ${form[0]} == "$command" ]] || continue
        for ((i = 0; i < ${#given[@]}; i++)); do
            [[ ${form[i + 1]} != [a-z]* || "|${form[i + 1]}|" == *"|${given[i]}|"* ]] || continue 2
        done
        place=$((${#given[@]} + 1))
        [[ ${form[-1]} != ... || $place -lt $((${#form[@]} - 1)) ]] || place=$((${#form[@]} - 2))
        [[ $offered == *" ${form[place]} "* ]] || _silc_offer "${form[place]}" "$word"
        offered+="${form[place]} "
    done <<<"$_silc_forms"
}

_silc() {
    local word=${COMP_WORDS[COMP_CWORD]} command=${COMP_WORDS[1]} value='' names=''
    local -a given=() options=()
    COMPREPLY=()
    if ((COMP_CWORD == 1)); then
        _silc_offer "${_silc_words// /|}|--help|--version" "$word"
        return
    elif [[ $command == help ]]; then
        ((COMP_CWORD > 2)) || _silc_offer "${_silc_words// /|}" "$word"
        return
    fi
    _silc_read
    if [[ -n $value ]]; then
        _silc_offer "$value" "$word"
    elif [[ $word == -* ]]; then
        while read -r -a options; do
            [[ ${options[0]} != "$command" ]] || names=${options[*]%%=*}
        done <<<"$_silc_options"
        _silc_offer "${names#"$command"}" "$word"
    else
        _silc_offer_place
    fi
}

complete -F _silc silc
