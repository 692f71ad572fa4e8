# A line of a file: its bytes, the values in it, and how it is shown with a place marked. Read by tools/explain and tools/deck.
#
# Files may hold any bytes, so a line is kept as a list of numbers, and a value is used in arithmetic only after it was seen to be digits.
#
# What is known of the line is shared by all parts: bytes, text, column, values, from, upto, fault, fault_at, fault_last, what, cause. No function may
# have a local of such a name, since bash hands a caller's locals down to what it calls.

say() {
    printf '%s\n' "$1" >&2
}

causes() {
    say "usual causes: $1"
}

# More bytes of a line than this are never looked at: the longest sound line has 55, the longest sound card 75, so a fault stands before.
longest=100

# An ordinary file that opens; a pipe would be emptied, or waited for, by reading it again.
readable() { # FILE
    [ -f "$1" ] && { : < "$1"; } 2> /dev/null
}

# Loads line N: bytes, its line feed too where it has one, none where the text has no such line; and how it is shown (render).
load_line() { # FILE N
    local all byte
    bytes=() all=()
    ! readable "$1" || mapfile -t all < <(tail -n "+$2" < "$1" 2> /dev/null | head -c $longest | od -An -v -t u1 -w1 | tr -d ' ')
    for byte in "${all[@]}"; do
        bytes+=("$byte")
        [ "$byte" -ne 10 ] || break
    done
    render
}

# text: the bytes as they are shown, one that is no plain character by its escape; column: where each stands in it.
render() {
    local i cell
    text=""
    column=()
    for ((i = 0; i < ${#bytes[@]}; i++)); do
        column+=(${#text})
        case ${bytes[i]} in
            10) cell="" ;;
            0) cell='\0' ;;
            9) cell='\t' ;;
            13) cell='\r' ;;
            *)
                printf -v cell '\\x%02X' "${bytes[i]}"
                ((bytes[i] < 32 || bytes[i] > 126)) || printf -v cell "%b" "$cell"
                ;;
        esac
        text+=$cell
    done
    column+=(${#text})
}

# Shows the line that was loaded. Each MARK is FIRST:LAST, bytes counted from 0; the last one may be just behind the line.
show_line() { # NOTE [MARK..]
    local marks="" mark first last note=$1 cut=""
    shift
    for mark; do
        first=${column[${mark%:*}]}
        last=$((${mark#*:} + 1 < ${#column[@]} ? column[${mark#*:} + 1] : ${#text} + 1))
        # a line feed is shown by no character, and marked behind the line
        ((last > first)) || last=$((first + 1))
        printf -v marks '%-*s' "$first" "$marks"
        while ((${#marks} < last)); do marks+="^"; done
    done
    [ ${#bytes[@]} -lt $longest ] || cut=" .."
    say "    $text$cut"
    [ -z "$marks$note" ] || say "    $marks${note:+ $note}"
}

is_digit() { # INDEX
    ((${bytes[$1]:-0} >= 48 && ${bytes[$1]:-0} <= 57))
}

# Takes COUNT values off the line by document 01's rule. values: the sound ones; from, upto: their first and last bytes.
# Where the line is not sound: status 1, fault_at the first byte that breaks the rule, fault_last the last of it, fault its kind (values.sh).
scan_values() { # COUNT
    local i=0 first digits want kind
    values=() from=() upto=() fault="" fault_at=0 fault_last=0
    while :; do
        first=$i
        [ "${bytes[i]:-}" != 45 ] || i=$((i + 1))
        digits=$i
        while is_digit $i; do i=$((i + 1)); done
        digits=$((i - digits))
        if ((digits == 0)); then set_fault digit $i $i
        elif ((digits > 1 && bytes[i - digits] == 48)); then set_fault zero $((i - digits)) $((i - digits))
        elif ((first + 2 == i && bytes[first] == 45 && bytes[first + 1] == 48)); then set_fault nought $first $((i - 1))
        elif ((digits > 9)); then set_fault digits $((first + (bytes[first] == 45) + 9)) $((i - 1))
        fi
        [ -z "$fault" ] || return 1
        want=32 kind=space
        ((${#values[@]} + 1 < $1)) || want=10 kind=end
        [ "${bytes[i]:-}" = $want ] || { set_fault $kind $i $i; return 1; }
        values+=("${text:column[first]:i - first}") from+=("$first") upto+=($((i - 1)))
        i=$((i + 1))
        [ $kind = space ] || return 0
    done
}

set_fault() { # KIND FIRST LAST
    fault=$1 fault_at=$2 fault_last=$3
}
