# The cycles of a circuit from power-up, for `kinvlopt run`: lines of inputs on standard input, lines of outputs on standard output. The device is asked
# through file descriptor 3 and answers through 4.
#
# A line gives inputs as name=bits, an array's highest index first, or name.index=bit; what it does not name stays as it was, 0 at first. Behind # is a
# remark, and a line that is only a remark is no cycle. A line of outputs has all of them as name=bits, as they are shown before the clock; where standard
# output is a terminal, a table has inputs and outputs.

fail() {
    echo "kinvlopt: line $line_number: $1" >&2
    exit 2
}

# the pins of a text: ` name.index=pin` in `ins` or `outs`, ` name=length` in `sizes`, and the names in order. Lines are pin, class, name, index, length
take_pins() {
    ins= outs= sizes=' ' in_names= out_names=
    while read -r pin class name index size; do
        case $sizes in
            *" $name="*) ;;
            *)
                sizes="$sizes$name=$size "
                if [ "$class" = IN ]; then in_names="$in_names $name"; else out_names="$out_names $name"; fi
                ;;
        esac
        if [ "$class" = IN ]; then ins="$ins $name.$index=$pin "; else outs="$outs $name.$index=$pin "; fi
    done
}

# found LIST KEY: what stands behind ` KEY=` in a list, or fails
found() {
    rest=${1#*" $2="}
    [ "$rest" != "$1" ] || return 1
    value=${rest%% *}
}

# character K of a string, counted from 1
character() {
    rest=$1
    k=$2
    while [ "$k" -gt 1 ]; do
        rest=${rest#?}
        k=$((k - 1))
    done
    value=${rest%"${rest#?}"}
}

# sets input NAME at INDEX to BIT
give() {
    found "$ins" "$1.$2" || fail "$1 has no index $2"
    eval "g$value=$3"
}

# takes a field of a line
take_field() {
    name=${1%%=*}
    bits=${1#*=}
    [ "$name" != "$1" ] || fail "'$1' is not of the form name=bits"
    case $bits in
        '' | *[!01]*) fail "'$1' is not of the form name=bits" ;;
    esac
    index=
    case $name in
        *.*)
            index=${name#*.}
            name=${name%%.*}
            ;;
    esac
    case $outs in
        *" $name.0="*) fail "$name is an output" ;;
    esac
    found "$sizes" "$name" || fail "there is no input $name"
    size=$value
    if [ -n "$index" ]; then
        [ ${#bits} = 1 ] || fail "$1 gives more than one bit"
        give "$name" "$index" "$bits"
        return
    fi
    [ ${#bits} = "$size" ] || fail "$name takes $size bits"
    i=$((size - 1))
    while [ -n "$bits" ]; do
        give "$name" "$i" "${bits%"${bits#?}"}"
        bits=${bits#?}
        i=$((i - 1))
    done
}

# the bits of a name, highest index first, from a string of 24 pins' values
bits_of() {
    found "$sizes" "$1"
    i=$((value - 1))
    bits=
    while [ "$i" -ge 0 ]; do
        found "$3" "$1.$i"
        character "$2" "$value"
        bits=$bits$value
        i=$((i - 1))
    done
}

# a column as wide as its name and its bits
column() {
    found "$sizes" "$1"
    width=${#1}
    [ "$width" -ge "$value" ] || width=$value
    printf "  %${width}s" "$2"
}

# a line of the table; without values its heading
put_row() {
    printf '%5s  |' "$1"
    for name in $in_names; do
        if [ -n "$2" ]; then bits_of "$name" "$2" "$ins"; else bits=$name; fi
        column "$name" "$bits"
    done
    printf '  |'
    for name in $out_names; do
        if [ -n "$3" ]; then bits_of "$name" "$3" "$outs"; else bits=$name; fi
        column "$name" "$bits"
    done
    echo
}

put_outputs() {
    gap=
    for name in $out_names; do
        bits_of "$name" "$1" "$outs"
        printf '%s%s=%s' "$gap" "$name" "$bits"
        gap=' '
    done
    echo
}

# show_cycles TABLE: a cycle for each line
show_cycles() {
    set -f
    registers=0000000000
    p=1
    while [ "$p" -le 24 ]; do
        eval "g$p=0"
        p=$((p + 1))
    done
    [ "$1" = 0 ] || put_row cycle '' ''
    line_number=0
    cycle=0
    return_mark=$(printf '\r')
    while IFS= read -r line || [ -n "$line" ]; do
        line_number=$((line_number + 1))
        line=${line%"$return_mark"}
        fields=${line%%#*}
        case "$fields" in
            *[!\ \	]*) ;;
            *) [ "$fields" = "$line" ] || continue ;;
        esac
        for field in $fields; do
            take_field "$field"
        done
        given=$g1$g2$g3$g4$g5$g6$g7$g8$g9$g10$g11$g12$g13$g14$g15$g16$g17$g18$g19$g20$g21$g22$g23$g24
        echo "$registers $given" >&3
        read -r shown values registers <&4 || fail "the device does not answer"
        [ ${#registers} = 10 ] || fail "the device refuses: $shown $values"
        if [ "$1" = 0 ]; then put_outputs "$values"; else put_row "$cycle" "$given" "$values"; fi
        cycle=$((cycle + 1))
    done
}
