# Refusal 1: a file that is not there, that cannot be opened, that is empty, or whose names line is not document 01's. Read by tools/explain.

traverse_names="latitude friction initial"
point_names="distance depth"
storm_names="seconds tide wind angle deficit"

# The names that the line has to have.
expected_names() { # NAME LINE
    case $1:$2 in
        storm.txt:*) echo "$storm_names" ;;
        traverse.txt:1) echo "$traverse_names" ;;
        *) echo "$point_names" ;;
    esac
}

# Why a file brought no text; status 1 where it has some.
explain_no_text() { # NAME
    local file=$folder/$1
    if [ -L "$file" ] && [ ! -e "$file" ]; then
        say "$1 in $folder is a link to nothing, so it counts as empty text"
        causes "a file that was moved or renamed after the link was made; a link to itself"
    elif [ ! -e "$file" ]; then
        say "there is no $1 in $folder, so it counts as empty text"
        causes "a wrong folder; another name or other capitals (the name is $1 to the letter); a file that was not saved"
        tell_near "$1"
    elif [ -f "$file" ] && ! readable "$file"; then
        say "$1 in $folder cannot be opened: $(reason "$file"), so it counts as empty text"
        causes "rights that do not let you read it: chmod u+r; a file of another user"
    elif [ -f "$file" ] && [ ! -s "$file" ]; then
        say "$1 in $folder is empty: it has not one byte"
        causes "an export that failed; a file that is still being written"
    else
        return 1
    fi
}

# What the system says of opening it.
reason() { # FILE
    local told
    told=$({ : < "$1"; } 2>&1)
    echo "${told##*: }"
}

# Files that may be the one that is meant, and folders below that have both.
tell_near() { # NAME
    local file stem=${1%.txt}
    for file in "$folder"/*; do
        file=${file##*/}
        [[ ${file,,} != "$stem"* ]] || say "this is there: $file"
    done
    [ ! -e "$folder/traverse.txt" ] && [ ! -e "$folder/storm.txt" ] || return 0
    for file in "$folder"/*/traverse.txt; do
        file=${file%/*}
        [ ! -e "$file/traverse.txt" ] || [ ! -e "$file/storm.txt" ] || say "this folder has both files: $file"
    done
}

# what, cause, fault_at, fault_last: how the line that was loaded differs from the names; status 1 where it does not.
name_difference() { # NAMES
    local i byte want
    fault=name fault_at=0 values=()
    for ((i = 0; i <= ${#1}; i++)); do
        want=10
        ((i == ${#1})) || printf -v want '%d' "'${1:i:1}"
        [ "${bytes[i]:-}" = "$want" ] || break
    done
    ((i <= ${#1})) || return 1
    fault_at=$i fault_last=$i
    byte=${bytes[i]:-}
    if [ "${bytes[*]:0:3}" = "239 187 191" ]; then
        what="a byte-order mark" cause="saved as UTF-8 with a mark: save it without one, or tail -c +4 FILE > NEW" fault_last=2
    elif [ "${bytes[*]:0:2}" = "255 254" ] || [ "${bytes[*]:0:2}" = "254 255" ]; then
        what="a byte-order mark of UTF-16" cause="saved as UTF-16: save it as plain text (ASCII)" fault_last=1
    elif [ "$text" != "$1" ] && is_names "$text"; then
        what="the names line of another place" cause="traverse.txt and storm.txt exchanged, or a line left out before it" fault_last=$((${#bytes[@]} - 1))
    elif ((i == 0)) && [[ $text =~ ^[-0-9] ]]; then
        what="values where the names should be" cause="no names line, or a line of values too many before it" fault_last=$((${#bytes[@]} - 1))
    elif [ -n "$byte" ] && [ "${text,,}" = "$1" ]; then
        what="a capital letter" cause="names are in small letters"
    else
        name_other "$byte" "$want"
    fi
}

is_names() { # TEXT
    [ "$1" = "$traverse_names" ] || [ "$1" = "$point_names" ] || [ "$1" = "$storm_names" ]
}

name_other() { # BYTE WANTED
    case $1 in
        "" | 0 | 9 | 13 | 32 | 34 | 39 | 35 | 44 | 59) name_byte 0 "$1" ;;
        10)
            what="the line ends here" cause="a name that was left out"
            ((fault_at > 0)) || { what="an empty line" cause="a blank line: the files have none"; }
            ;;
        *) what="another character than the name has" cause="a name written otherwise, names in another order, or a heading" ;;
    esac
    [ "$2:${1:-0}" = 10:32 ] && ! only_blank_from "$fault_at" && what="more than the names" cause="a unit or a further name behind the last"
    return 0
}

explain_names() { # NAME LINE
    local names
    names=$(expected_names "$1" "$2")
    explain_line "$1" "$2" "expected: $names" \
        "line ends of Windows (carriage returns); a byte-order mark; tabs, commas or two spaces between the names; no line feed after the line" \
        name_difference "$names"
}
