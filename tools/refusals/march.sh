# Refusals 10, 11 and 12: water depth, flux and setup of a segment past their limits. Read by tools/explain.
#
# Only the depth without setup is worked out here; the ranges are the program's.

# Ten-thousandths of a foot as feet.
feet() { # NUMBER
    local n=$1 sign=""
    ((n >= 0)) || { sign=- n=$((-n)); }
    printf '%s%d.%04d ft' "$sign" $((n / 10000)) $((n % 10000))
}

# Shows the two points of the segment in both files, the values that count marked: VALUES of the storm's line, from 0, and the traverse's depth.
# d1, d2, p1, p2, tide: depths, deficits and tide; status 1 where they cannot be had.
show_segment() { # SEGMENT VALUES..
    local segment=$1 end line value marks
    shift
    for end in 1 2; do
        line=$(line_of traverse.txt 0 $((segment + end - 1)))
        load_line "$folder/traverse.txt" "$line"
        scan_values 2 || return 1
        printf -v "d$end" '%s' "${values[1]}"
        say "traverse.txt, line $line, point $((segment + end - 1)) (distance, depth):"
        show_line "" "${from[1]}:${upto[1]}"
    done
    for end in 1 2; do
        line=$(line_of storm.txt "$record" $((segment + end - 1)))
        load_line "$folder/storm.txt" "$line"
        scan_values 5 || return 1
        printf -v "p$end" '%s' "${values[4]}"
        tide=${values[1]}
        marks=()
        for value; do marks+=("${from[value]}:${upto[value]}"); done
        say "storm.txt, line $line, point $((segment + end - 1)) (seconds, tide, wind, angle, deficit):"
        show_line "" "${marks[@]}"
    done
}

# The lines of its two points, where the count of points is known.
segment_lines() { # SEGMENT
    ((points == 0)) || echo "lines $(line_of storm.txt "$record" "$1") and $(line_of storm.txt "$record" $(($1 + 1))), "
}

explain_segment() { # NUMBER SEGMENT
    local counting
    case $1 in
        10) counting="1 4" ;;
        *) counting="0 2 3" ;;
    esac
    say "in storm.txt, $(segment_lines "$2")record $record, segment $2 (points $2 and $(($2 + 1)))"
    say_elapsed
    # shellcheck disable=SC2086 # a list of values
    if ((points == 0)) || ! readable "$folder/traverse.txt"; then no_line traverse.txt
    elif ! readable "$folder/storm.txt"; then no_line storm.txt
    elif ! show_segment "$2" $counting; then changed
    else tell_depth "$2"
    fi
    case $1 in
        10)
            say "limits: both ends of the water depth from 1 ft to 1000 ft"
            causes "a segment that falls dry at low water, or in a wind off the shore; depths, initial level or tide in another unit or from another datum"
            ;;
        11)
            say "limits: both ends of the flux along the shore from -10000 to 10000 ft2/s"
            causes "a wind of more than 124 miles per hour along the shore over more than 600 ft of water, since only there the limiting flux is so large; friction too small; winds or depths in another unit"
            ;;
        12)
            say "limits: both ends of the setup from -100 ft to 100 ft"
            causes "a strong wind on or off the shore over long shallow segments; depths or winds in another unit"
            ;;
    esac
}

# Step 1 of document 01 without S: what the segment has of depth before any setup.
tell_depth() { # SEGMENT
    load_line "$folder/traverse.txt" 2
    scan_values 3 || return 0
    say "its water depth without setup: $(feet $((500 * (d1 + d2) + 100 * (values[2] + tide) + 57 * (p1 + p2))))$(
        (($1 == 1)) || echo ", to which the setup of the segments seaward of it is added")"
}
