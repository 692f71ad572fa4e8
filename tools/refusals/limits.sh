# Refusals 5, 6, 7, 9 and 18: counts and values past their limits. Read by tools/explain; the limits themselves by tools/deck too.

# The limits and units of README.md's table, and what usually brings a value past them.
limits_of() { # VALUE
    case $1 in
        latitude) least=0 most=900 unit="0.1 degree north" cause="43 degrees are 430; a southern latitude, or a longitude" ;;
        friction) least=10 most=50 unit="0.0001" cause="K of TM-35 in ten-thousandths: 0.0025 is 25" ;;
        initial) least=-1000 most=1000 unit="0.01 ft" cause="1 ft is 100; 10 ft are the most" ;;
        distance) least=0 most=6400 unit="0.1 nautical mile" cause="5 nautical miles are 50; feet or metres; points landward of the shore" ;;
        depth) least=0 most=10000 unit="0.1 ft" cause="50 ft are 500; heights of land, which are negative depths; soundings in centimetres" ;;
        seconds) least=1 most=3600 unit="s" cause="seconds since the storm's start and not since the record before; two records of one time; records more than an hour apart" ;;
        tide) least=-2000 most=2000 unit="0.01 ft" cause="1 ft is 100; 20 ft are the most" ;;
        wind) least=0 most=2000 unit="0.1 mile per hour" cause="100 miles per hour are 1000; a missing reading as 9999 or -1" ;;
        angle) least=0 most=3599 unit="0.1 degree" cause="360 degrees are 0; 3600 is to be added to a negative angle; hundredths of a degree" ;;
        deficit) least=0 most=300 unit="0.01 inch of mercury" cause="the pressure itself (2992) and not what it lacks to that at the storm's edge; millibars; a pressure above the edge's" ;;
    esac
}

first_seconds="the first record closes no interval, so its seconds are 0; records that open their intervals are shifted by one (docs/DECISIONS.md, 12)"

explain_count() { # POINTS
    local line=$((3 + $1))
    if (($1 > 65)); then
        line=69
        say "in traverse.txt, line $line, point 66: there are $1 points"
    else
        say "in traverse.txt, line $line, point $1: there is no second point"
    fi
    load_line "$folder/traverse.txt" "$line"
    if ! readable "$folder/traverse.txt"; then no_line traverse.txt
    elif ! scan_values 2; then changed
    else show_line "point $((line - 3))" "${from[0]}:${upto[1]}"
    fi
    say "limits: 2 to 65 points, sea to shore"
    causes "a sounding line that was not thinned out; a traverse that was cut short"
}

# The values of a line that lie past their limits, marked; NAMES are those of its values from FIRST on.
explain_values() { # FILE LINE COUNT FIRST NAMES..
    local file=$1 line=$2 count=$3 first=$4 i name marks=() note="" told="" why=""
    shift 4
    load_line "$folder/$file" "$line"
    readable "$folder/$file" || { no_line "$file"; return; }
    scan_values "$count" || { changed; return; }
    for ((i = first; i < first + $#; i++)); do
        name=${*:i - first + 1:1}
        limits_of "$name"
        [ "$name:$record" != seconds:1 ] || least=0 most=0 cause=$first_seconds
        ((values[i] < least || values[i] > most)) || continue
        marks+=("${from[i]}:${upto[i]}")
        note+="${note:+, }$name ${values[i]}"
        told+="${told:+; }$name from $least to $most, in $unit"
        why+="${why:+; }$cause"
    done
    if [ ${#marks[@]} -eq 0 ]; then return 1; fi
    show_line "$note" "${marks[@]}"
    say "limits: $told"
    causes "$why"
}

explain_traverse_value() { # PLACE
    if (($1 == 0)); then
        say "in traverse.txt, line 2"
        explain_values traverse.txt 2 3 0 latitude friction initial || changed
    else
        place_in traverse.txt $((3 + $1))
        explain_values traverse.txt $((3 + $1)) 2 0 distance depth || changed
    fi
}

explain_distance() { # POINT
    place_in traverse.txt $((3 + $1))
    if ! readable "$folder/traverse.txt"; then no_line traverse.txt
    elif ! show_distance "$1"; then changed
    fi
    say "limits: each distance from 1 to 100 less than the one before (0.1 nautical mile), the last 0"
    causes "points from shore to sea: they go from sea to shore; more than 10 nautical miles between two points; distances from the first point and not from shore"
}

# The point before and the one whose distance breaks the rule; status 1 where it does not.
show_distance() { # POINT
    local before
    load_line "$folder/traverse.txt" $((2 + $1))
    scan_values 2 || return 1
    before=${values[0]}
    show_line ""
    load_line "$folder/traverse.txt" $((3 + $1))
    scan_values 2 || return 1
    if ((before - values[0] < 1)); then what="distance ${values[0]}, not less than $before"
    elif ((before - values[0] > 100)); then what="distance ${values[0]}, $((before - values[0])) less than $before"
    elif (($1 == points && values[0] != 0)); then what="distance ${values[0]} at the last point, not 0"
    else return 1
    fi
    show_line "$what" "${from[0]}:${upto[0]}"
}

explain_record_value() { # PLACE
    if ((points == 0)); then
        say "in storm.txt, record $record$( (($1 == 0)) || echo ", point $1")"
        say_elapsed
        no_line traverse.txt
    elif (($1 > 0)); then
        place_in storm.txt "$(line_of storm.txt "$record" "$1")"
        say_elapsed
        explain_values storm.txt "$(line_of storm.txt "$record" "$1")" 5 2 wind angle deficit || changed
    else
        say "in storm.txt, line $(line_of storm.txt "$record" 1), record $record: its seconds, its tide, or the elapsed time"
        say_elapsed
        explain_values storm.txt "$(line_of storm.txt "$record" 1)" 5 0 seconds tide || explain_elapsed
    fi
}

explain_elapsed() {
    if ((elapsed + values[0] <= 1000000000)); then changed; return; fi
    show_line "elapsed $((elapsed + values[0])) s" "${from[0]}:${upto[0]}"
    say "limits: elapsed time from 0 to 1000000000 s"
    causes "a storm that does not end; records of another storm behind it"
}

explain_calm() { # POINT
    if ((points == 0)); then
        say "in storm.txt, record $record, point $1"
        say_elapsed
        no_line traverse.txt
    else
        place_in storm.txt "$(line_of storm.txt "$record" "$1")"
        say_elapsed
        load_line "$folder/storm.txt" "$(line_of storm.txt "$record" "$1")"
        if ! readable "$folder/storm.txt"; then no_line storm.txt
        elif ! show_calm; then changed
        fi
    fi
    say "limits: a wind of 0 carries angle 0"
    causes "the chart's old angle left beside a wind of 0; the error is usually in the wind, which was left out or not read: give it its value, or angle 0 where it is a calm"
}

# The wind and the angle of the line that was loaded; status 1 where it is no calm with a direction.
show_calm() {
    scan_values 5 || return 1
    ((values[2] == 0 && values[3] != 0)) || return 1
    show_line "wind 0, angle ${values[3]}" "${from[2]}:${upto[2]}" "${from[3]}:${upto[3]}"
}
