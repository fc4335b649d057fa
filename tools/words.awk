# Tells beforehand whether words are a call of the program, as the help's page has it: a command, its options with their values, and as many
# names as it has files. The program itself decides; this says whether its answer may need an explanation. Ends with 0 where they are a call.
#
# usage: page=tools/help.txt awk -f tools/words.awk -- COMMAND ..
BEGIN {
    read_page(ENVIRON["page"], ARGV[1])
    for (at = 2; at < ARGC && is_right; at++) {
        if (!ended && ARGV[at] == "--") ended = 1
        else if (!ended && ARGV[at] ~ /^-./) take_option(ARGV[at])
        else take_name(ARGV[at])
    }
    exit !(is_right && names == files && !(given["--kernel"] == "qv" && given["--form"] == "1"))
}

# Reads the lines of one command: how many names it has, and of each option its values, or the most of its number.
function read_page(page, command,    line, part, inside, of_program) {
    while ((getline line < page) > 0) {
        if (line ~ /^[A-Z]/) of_program = line ~ /^The program,/
        split(line, part, " ")
        if (of_program && line ~ /^  [a-z]/ && (inside = part[1] == command)) {
            is_right = 1
            for (files = 0; part[files + 2] ~ /^[A-Z]+$/; files++) continue
            if (part[2] == "N") most[""] = number_in(line)
        }
        if (of_program && line ~ /^    --/ && inside) {
            values[part[1]] = "|" part[2] "|"
            if (part[2] == "N") most[part[1]] = number_in(line)
        }
    }
}

function number_in(line) {
    sub(/.* 1 to /, "", line)
    return line + 0
}

function is_number(word, most) {
    return word ~ /^[1-9][0-9]*$/ && length(word) < 9 && word + 0 <= most
}

function take_name(word) {
    names++
    if ("" in most && !is_number(word, most[""])) is_right = 0
}

function take_option(word,    equals, name) {
    equals = index(word, "=")
    name = equals ? substr(word, 1, equals - 1) : word
    if (!(name in values) || name in given || !equals && at + 1 >= ARGC) {
        is_right = 0
        return
    }
    word = equals ? substr(word, equals + 1) : ARGV[++at]
    given[name] = word
    is_right = name in most ? is_number(word, most[name]) : word !~ /\|/ && index(values[name], "|" word "|")
}
