# Refusals 2, 3 and 4: where a line of values stands, a text that ends too early, lines of a record that differ. Read by tools/explain.

# record, point: which ones a line of storm.txt belongs to; status 1 where the count of points is not known.
storm_place() { # LINE
    ((points > 0 && $1 > 1)) || return 1
    record=$((($1 - 2) / points + 1))
    point=$((($1 - 2) % points + 1))
}

# The line of a point, by its file.
line_of() { # NAME RECORD POINT
    if [ "$1" = traverse.txt ]; then
        echo $((3 + $3))
    else
        echo $((1 + ($2 - 1) * points + $3))
    fi
}

# Where a line stands, in words; record and point where it has them.
place_in() { # NAME LINE
    local where="in $1, line $2"
    if [ "$1" = traverse.txt ]; then
        (($2 < 4)) || where+=", point $(($2 - 3))"
    elif storm_place "$2"; then
        where+=", record $record, point $point"
    fi
    say "$where"
}

# How many values a line has.
count_of() { # NAME LINE
    if [ "$1" = storm.txt ]; then echo 5
    elif (($2 == 2)); then echo 3
    else echo 2
    fi
}

# Shows a line and its fault where FINDER finds one: what, cause, fault_at, fault_last. Then RULE, and how such a fault comes about; USUAL says that
# where none is found.
explain_line() { # NAME LINE RULE USUAL FINDER..
    place_in "$1" "$2"
    load_line "$folder/$1" "$2"
    if ! readable "$folder/$1"; then
        cause=$4
        no_line "$1"
    elif "${@:5}"; then
        show_line "$what" "$fault_at:$fault_last"
    else
        cause=$4
        changed
    fi
    say "$3"
    causes "$cause"
}

explain_malformed() { # NAME LINE
    local count
    count=$(count_of "$1" "$2")
    explain_line "$1" "$2" "limits: $count values ($(names_of "$1" "$2")), $form" \
        "a decimal point; a space at the end of the line; a leading zero; no line feed after the last line; line ends of Windows; tabs" \
        find_malformed "$count"
}

find_malformed() { # COUNT
    [ ${#bytes[@]} -gt 0 ] && ! scan_values "$1" && name_fault "$1"
}

names_of() { # NAME LINE
    expected_names "$1" "$(($2 == 2 ? 1 : $2))"
}

explain_ended() { # NAME LINE
    say "in $1: the text ends after line $2"
    load_line "$folder/$1" "$2"
    readable "$folder/$1" || no_line "$1"
    [ ${#bytes[@]} -eq 0 ] || show_line "the text ends behind this line" "$((${#bytes[@]} - 1)):$((${#bytes[@]} - 1))"
    if [ "$1" = traverse.txt ]; then
        case $2 in
            1) say "limits: behind $traverse_names comes a line with these three values" ;;
            2) say "limits: behind the three values come the names $point_names and a line for each of 2 to 65 points" ;;
            *) say "limits: behind $point_names comes a line for each of 2 to 65 points" ;;
        esac
        causes "a file that was cut short, or not written to its end"
    elif (($2 == 1)); then
        say "limits: a storm has one record or more, each with a line for each point of the traverse${points_known:+, $points here}"
        causes "a file that was cut short, or an export that found no records"
    else
        explain_short "$2"
    fi
}

# The last record has lines for some of the points alone.
explain_short() { # LINE
    if storm_place "$1"; then
        say "record $record has $point of $points lines: the traverse has $points points, and each record a line for each"
        tell_block $((2 + (record - 1) * points))
    fi
    causes "a storm made for a traverse of another count of points; a line left out; a file that was cut short"
}

# How many lines of the storm, from this one on, have the same seconds and tide: so many points its maker may have meant.
tell_block() { # LINE
    readable "$folder/storm.txt" || return 0
    say "lines in a row with the same seconds and tide, from line $1 on: $(tail -n "+$1" < "$folder/storm.txt" | awk '
        NR == 1 { seconds = $1; tide = $2 }
        $1 != seconds || $2 != tide || NR > 9999 { exit }
        { count++ }
        END { print count + 0 }')"
}

explain_differs() { # LINE
    place_in storm.txt "$1"
    if ! readable "$folder/storm.txt"; then
        no_line storm.txt
    elif ! storm_place "$1"; then
        no_line traverse.txt
    else
        show_difference "$(line_of storm.txt "$record" 1)" "$1" || changed
        tell_block "$(line_of storm.txt "$record" 1)"
    fi
    say "limits: every line of a record repeats its seconds and its tide, and it has a line for each point of the traverse${points_known:+, $points here}"
    causes "a storm made for a traverse of another count of points; a line left out of a record; a tide that was given by point"
}

# The record's first line and the one that differs; status 1 where it does not.
show_difference() { # FIRST LINE
    local i old names=(seconds tide)
    load_line "$folder/storm.txt" "$1"
    scan_values 5 || return 1
    old=("${values[@]}")
    say "line $1, the first of the record:"
    show_line "" "${from[0]}:${upto[0]}" "${from[1]}:${upto[1]}"
    load_line "$folder/storm.txt" "$2"
    scan_values 5 || return 1
    for i in 0 1; do
        [ "${values[i]}" = "${old[i]}" ] && continue
        say "line $2:"
        show_line "${names[i]} ${values[i]}, not ${old[i]}" "${from[i]}:${upto[i]}"
        return 0
    done
    return 1
}
