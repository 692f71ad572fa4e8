# Refusals of an old card deck: 2, 3, 6, 15, 16 and 17, in words, with the line and its place marked. Read by tools/deck, with lines.sh, values.sh and
# limits.sh. `deck` is the file, which is only read.
#
# Of a card that was loaded: word_upto, card_from and card_upto are the last byte of its word and both ends of its card number; from and upto, those
# of its numbers (lines.sh).

card_form="a word, a card number from 1 and one to six numbers; one space between two of them, a line feed behind the last"

# Takes the card off the line that was loaded. Where the line has not the shape of one: status 1, with fault, fault_at and fault_last (set_fault).
scan_card() {
    local i=0 first
    values=() from=() upto=() fault="" fault_at=0 fault_last=0
    while ((i < ${#bytes[@]} && bytes[i] != 32 && bytes[i] != 10)); do i=$((i + 1)); done
    ((i > 0)) || { set_fault start 0 0; return 1; }
    [ "${bytes[i]:-}" = 32 ] || { set_fault word $i $i; return 1; }
    word_upto=$((i - 1))
    i=$((i + 1)) card_from=$i
    while is_digit $i; do i=$((i + 1)); done
    card_upto=$((i - 1))
    if ((i == card_from)); then set_fault card $i $i; return 1; fi
    if ((i > card_from + 8)); then set_fault digits $((card_from + 8)) $((i - 1)); return 1; fi
    [ "${bytes[i]:-}" = 32 ] || { set_fault card $i $i; return 1; }
    while :; do
        first=$((i + 1))
        scan_number $first || return 1
        i=$past
        from+=("$first") upto+=($((i - 1)))
        case ${bytes[i]:-} in
            10) return 0 ;;
            32) if ((${#from[@]} == 6)); then set_fault seventh $i $i; return 1; fi ;;
            *) set_fault number $i $i; return 1 ;;
        esac
    done
}

# past: the byte behind the number at a byte; status 1 where it has no digit or more than eight.
scan_number() { # INDEX
    local i=$1 digits=0 dots=0 ninth=0
    while :; do
        if is_digit $i; then
            digits=$((digits + 1))
            ((digits != 9)) || ninth=$i
        elif [ "${bytes[i]:-}" = 46 ] && ((dots == 0)); then dots=1
        else break
        fi
        i=$((i + 1))
    done
    past=$i
    if ((digits > 8)); then set_fault digits "$ninth" $((i - 1)); return 1; fi
    if ((digits == 0 && dots == 1)); then set_fault point "$1" "$1"; return 1; fi
    if ((digits == 0)); then set_fault number $i $i; return 1; fi
}

# what, cause: the fault that scan_card set, in words, and how it usually comes about.
name_card_fault() {
    local byte=${bytes[fault_at]:-} i
    if [ -z "$byte" ] && ((${#bytes[@]} == longest)); then
        what="a line that is longer than any card" cause="no line feeds between the cards; a file that is no deck"
        fault_at=0 fault_last=$((longest - 1))
        return
    fi
    case $fault in
        digits) what="more than eight digits" cause="two fields run together, or a number that was not rounded" ;;
        point) what="a point without a digit" cause="an empty field of a card in columns: a card has only as many numbers as there are" ;;
        seventh)
            if only_blank_from "$fault_at"; then name_space 0; return; fi
            what="more than six numbers" cause="a card has six at most: the others go on a next card"
            fault_at=$((fault_at + 1)) fault_last=$((${#bytes[@]} - 1))
            ;;
        word)
            # no space in the whole line: fields are parted otherwise
            for ((i = 0; i < fault_at; i++)); do
                case ${bytes[i]} in 0 | 9 | 44 | 59) fault_at=$i fault_last=$i; name_byte 0 "${bytes[i]}"; return ;; esac
            done
            name_card_byte "$byte"
            ;;
        *) name_card_byte "$byte" ;;
    esac
}

name_card_byte() { # BYTE
    case $fault:$1 in
        start:10) what="an empty line" cause="a blank line between cards or at the end of the deck: it has none" ;;
        start:32) what="a space at the start of the line" cause="a card in columns, or one that has a number in front: the word comes first" ;;
        word:10) what="the line ends after its word" cause="a title card, or a card without its number" ;;
        card:10) what="the line ends after its word and card number" cause="a card whose numbers were left out, or all in the next line" ;;
        number:10) what="the line ends where a number is due" cause="a space at the end of the line; a number that was left out" ;;
        *:32)
            if ((fault_at > 0)) && only_blank_from "$fault_at"; then name_space 0; return; fi
            what="two spaces" cause="a card in columns: one space between two fields; awk '{ \$1 = \$1 } 1' FILE > NEW takes the others out"
            ;;
        card:45) what="a minus" cause="card numbers count from 1" ;;
        *:45) what="a minus" cause="heights of land as negative depths, or distances landward of the shore: the cards have neither" ;;
        number:46) what="a second point" cause="two numbers run together" ;;
        card:46) what="a point in the card number" cause="a card whose number was left out" ;;
        card:*) name_byte 0 "$1"; [ "$what" != "a letter" ] || cause="a title or parameter card: a deck has DIST and DEPTH cards alone" ;;
        *) name_byte 0 "$1" ;;
    esac
}

# Loads a line of the deck, or says that it cannot be shown; status 1 then.
load_card() { # LINE
    load_line "$deck" "$1"
    readable "$deck" || { say "$deck is no ordinary file, so its line is not shown"; return 1; }
}

changed() {
    say "the deck does not show this fault now: it was changed while it was read"
}

explain_card_shape() { # LINE
    cause="cards in columns, with more than one space between two fields; line ends of Windows; a last line without its line feed"
    if load_card "$1"; then
        if [ ${#bytes[@]} -gt 0 ] && ! scan_card; then
            name_card_fault
            show_line "$what" "$fault_at:$fault_last"
        else
            changed
        fi
    fi
    say "limits: $card_form; a card number has one to eight digits, and so has a number, with at most one point"
    causes "$cause"
}

# dist_cards, depth_cards: how many of each stand before a line. They are sound, so they are numbered from 1 without a gap.
count_cards() { # LINE
    read -r dist_cards depth_cards < <(head -n $(($1 - 1)) < "$deck" | awk '{ count[$1]++ } END { print count["DIST"] + 0, count["DEPTH"] + 0 }')
}

# The card's word and its number, as they are shown.
card_word() { printf '%s' "${text:0:column[word_upto + 1]}"; }
card_number() { printf '%s' "${text:column[card_from]:card_upto - card_from + 1}"; }

explain_card_order() { # LINE
    local due number=0
    cause="a card that was left out or stands twice; cards out of order"
    if load_card "$1"; then
        count_cards "$1"
        due="DIST $((dist_cards + 1)) or DEPTH 1"
        ((depth_cards == 0)) || due="DEPTH $((depth_cards + 1))"
        # a wrong word may be of any length
        word_upto=$((longest - 1))
        if scan_card; then number=$((10#$(card_number))); fi
        if { [ -z "$fault" ] || ((${#bytes[@]} == longest)); } && name_card_order "$(card_word)" "$number"; then
            show_line "$what, due $due" "$fault_at:$fault_last"
        else
            changed
        fi
    fi
    say "limits: DIST cards first, numbered from 1, then DEPTH cards, numbered from 1 again; no other word"
    causes "$cause"
}

# fault_at, fault_last, what, cause: why a card may not stand behind those that were counted; status 1 where it may.
name_card_order() { # WORD NUMBER
    local before
    fault_at=0 fault_last=$word_upto what="word $1"
    [ ${#1} -le 20 ] || what="word ${1:0:20}.."
    case $1 in
        '\xEF\xBB\xBF'*) what="a byte-order mark" fault_last=2 cause="saved as UTF-8 with a mark: save it without one, or tail -c +4 FILE > NEW"; return ;;
        DIST) before=$dist_cards ;;
        DEPTH) before=$depth_cards ;;
        [Dd][Ii][Ss][Tt] | [Dd][Ee][Pp][Tt][Hh]) cause="words are in capitals"; return ;;
        *) cause="a card of another kind (title, parameters, wind), which is to be left out; a word written otherwise: DIST and DEPTH alone"; return ;;
    esac
    if [ "$1" = DIST ] && ((depth_cards > 0)); then
        cause="DIST and DEPTH cards in turns, or a second deck behind the first: all DIST cards come before the first DEPTH card"
        return
    fi
    fault_at=$card_from fault_last=$card_upto what="card number $2"
    if (($2 == 0)); then cause="card numbers count from 1"
    elif (($2 == before + 1)); then return 1
    elif [ "$1" = DEPTH ] && ((depth_cards == 0 && $2 == dist_cards + 1)); then cause="DEPTH cards that go on counting: they are numbered from 1 again"
    elif (($2 <= before)); then cause="a card that stands twice; cards out of order"
    else cause="a card that was left out; cards out of order"
    fi
}

explain_card_unit() { # LINE
    local i number marks=() told=""
    if load_card "$1"; then
        if scan_card; then
            for i in "${!from[@]}"; do
                number=${text:column[from[i]]:upto[i] - from[i] + 1}
                [[ $number =~ \.[0-9]0*$ || $number =~ ^[^.]*\.?$ ]] && continue
                marks+=("${from[i]}:${upto[i]}")
                told+="${told:+, }$number"
            done
        fi
        if [ ${#marks[@]} -gt 0 ]; then show_line "$told" "${marks[@]}"; else changed; fi
    fi
    say "limits: whole tenths, of a nautical mile on DIST cards, of a foot on DEPTH cards"
    causes "hundredths, as 0.05 or 12.75: round them to tenths; numbers that were turned from metres, fathoms, kilometres or statute miles"
}

explain_card_counts() {
    if readable "$deck"; then
        awk '
            $1 == "DIST" { dist[++n] = NF - 2 }
            $1 == "DEPTH" { depth[++m] = NF - 2; depths += NF - 2 }
            END {
                for (i = 1; i < n + m && dist[i] == depth[i]; i++);
                printf "depths: %d; the first cards that differ: DIST %d with %d numbers, DEPTH %d with %d\n", depths, i, dist[i], i, depth[i]
            }' < "$deck" >&2
    else
        say "$deck is no ordinary file, so its cards are not counted"
    fi
    say "limits: a depth for each distance"
    causes "a card that was left out, or one with a number too few or too many; a deck of DIST or of DEPTH cards alone"
}

explain_given() { # LATITUDE FRICTION INITIAL
    local name told="" why="" value
    for name in latitude friction initial; do
        limits_of "$name"
        value=$1
        shift
        value=${value%%[0-9]*}$((10#${value#-}))
        ((value < least || value > most)) || continue
        say "$name $value"
        told+="${told:+; }$name from $least to $most, in $unit"
        why+="${why:+; }$cause"
    done
    say "limits: $told"
    causes "$why"
}

explain_no_deck() {
    if readable "$deck" && [ -s "$deck" ]; then changed; else say "$deck is empty: it has not one byte"; fi
    causes "an export that failed; a file that is still being written"
}
