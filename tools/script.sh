# shellcheck shell=sh disable=SC2154
# What the scripts in sh have in common. A script sources it after `here`, the repository's folder, is set.

# Prints the comment at the head of a script, which ends with its usage.
head_of() {
    sed -n '2,/^[^#]/{/^#/!d;s/^# \{0,1\}//;p;}' "$1"
}

# Answers --help for a script that takes no words: $1 is the script, and the others are its words.
takes_no_words() {
    case $#${2-} in
        1) return ;;
        2-h | 2--help) head_of "$1"; exit 0 ;;
        *) head_of "$1" >&2; exit 1 ;;
    esac
}

# Sets `program` to the one that answers here, and ends where there is none: no script builds it by itself.
needs_program() {
    program=$("$here/tools/program" | head -n 1)
    [ -n "$program" ] && return
    echo "the program isn't built: ./qp build" >&2
    exit 125
}
