# Refusal 2: which byte of a value line breaks the rule, and what usually brings it there. Read by tools/explain and tools/deck; scan_values (lines.sh) found it.

form="one space between two, a line feed behind the last; each an optional minus and one to nine digits, no leading zero"

# The line has spaces alone, or a carriage return too, from this byte on.
only_blank_from() { # INDEX
    local byte
    for byte in "${bytes[@]:$1}"; do
        case $byte in 9 | 10 | 13 | 32) ;; *) return 1 ;; esac
    done
}

# what, cause: the fault that scan_values set, in words, and how it usually comes about.
name_fault() { # COUNT
    case $fault in
        zero) what="a leading zero" cause="numbers padded to a width: write 5 and not 05" ;;
        nought) what="a minus before nought" cause="a small negative number that was rounded: write 0" ;;
        digits) what="more than nine digits" cause="two values run together, or a number that was not rounded" ;;
        *) name_byte "$1" "${bytes[fault_at]:-}" ;;
    esac
}

name_byte() { # COUNT BYTE
    local sound=${#values[@]}
    [ "$fault" != end ] && [ "$fault" != space ] || sound=$((sound + 1))
    case $2 in
        "") what="no line feed: the text ends here" cause="an editor that writes no line feed after the last line: end the file with one" ;;
        0) what="a zero byte" cause="the file was saved as UTF-16: save it as plain text (ASCII)" ;;
        9) what="a tab" cause="values copied from a spreadsheet: one space between two values" ;;
        10) name_short "$1" "$sound" ;;
        13) what="a carriage return" cause="the file has the line ends of Windows: tr -d '\\r' < FILE > NEW takes them out" ;;
        32) name_space "$1" ;;
        34 | 39) what="a quotation mark" cause="values exported with quotes: digits alone" ;;
        35) what="a number sign" cause="a comment: the files have none" ;;
        43) what="a plus sign" cause="a number written with its sign: write 5 and not +5" ;;
        44 | 59) what="a comma or semicolon" cause="a file of comma-separated values, or a thousands separator: one space between two values" ;;
        46) what="a decimal point" cause="a value in whole units: values are whole numbers of the small units, so that 12.5 nautical miles are 125" ;;
        69 | 101) what="an exponent" cause="a number as 1e3: write 1000" ;;
        *) name_odd "$2" ;;
    esac
}

name_short() { # COUNT VALUES
    if ((fault_at == 0)); then
        what="an empty line" cause="a blank line between records or at the end of the file: the files have none"
    else
        what="the line ends after $2 of $1 values" cause="a value that was left out"
    fi
}

name_space() { # COUNT
    if ((fault_at > 0)) && [ "${bytes[fault_at - 1]}" = 45 ]; then
        what="a minus with no digit behind it" cause="a space between sign and number: write -5 and not - 5"
    elif only_blank_from "$fault_at"; then
        what="a space at the end of the line" cause="an export that writes a space after each value"
    elif [ "$fault" = end ]; then
        what="more than $1 values" cause="a value too many, a comment, or two lines that run together"
        fault_at=$((fault_at + 1)) fault_last=$((${#bytes[@]} - 1))
    elif ((fault_at == 0)); then
        what="a space at the start of the line" cause="values set in columns: no space before the first"
    else
        what="two spaces" cause="values set in columns: one space between two values"
    fi
}

name_odd() { # BYTE
    if (($1 < 32 || $1 > 126)); then
        printf -v what 'a byte, %02X, that is no plain character' "$1"
        cause="text from a word processor (its minus sign, its fixed space), or a byte-order mark: plain ASCII alone"
    elif (($1 >= 65 && $1 <= 90 || $1 >= 97 && $1 <= 122)); then
        what="a letter" cause="a unit, a word or a names line among the values: digits alone"
    else
        what="a character that no value has" cause="text that is not a table of whole numbers"
    fi
}
