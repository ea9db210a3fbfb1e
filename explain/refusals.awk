# Says a refusal in sentences; sentences.awk, beside this, takes the text and shows its lines.

function refusal(text,    part, number, l) {
    gsub(/[()]/, "", text)
    split(text, part, " ")
    number = part[2]
    l = part[3]
    at = 1
    if (number == 1)
        too_long()
    else if (number == 2)
        outside_set(l)
    else if (number == 3)
        say("Line " l " is not one closed form from its first byte to its last: " not_closed(line[l]))
    else if (number == 4)
        say("Line " l " is a closed form, but it is not written as the format has it: " ill_written(line[l]))
    else if (number == 5)
        out_of_range(l)
    else if (number == 6)
        out_of_place(l)
    else if (number == 7)
        twice(l)
    else if (number == 20)
        limit()
    else if (number == 21)
        list_too_long()
    if (l > 0)
        show_line(l, at - 30, "")
}

function too_long() {
    say("The text has more than 32,768 bytes.")
    say("Check the design in parts. A loop through a module that is not in the text is not seen then.")
}

function list_too_long() {
    say("The list is longer than 65,536 bytes, so there is none. The text itself is well written.")
    say("To see reports, check the modules one by one; of a module that alone has too many, a part of its lines. Mend what is reported most, then check the whole text again: a loop through a module that is not in the text is not seen.")
}

function outside_set(l) {
    if (!bad_line) {
        say("The last line, " l ", has no line feed at its end: write one.")
        return
    }
    at = bad_at
    say("Byte " bad_column " of line " l " is " shows[bad_byte] "; a text has the bytes 20 to 7E (hexadecimal) and line feeds only.")
    if (bad_byte == 13)
        say("It is a carriage return: end lines with a line feed alone.")
    else if (bad_byte == 9)
        say("It is a tab: write one space.")
    else
        say("Take it out.")
}

# Why a line has refusal 3; the first cause from the left.
function not_closed(s,    i, c, depth) {
    if (s == "")
        return "it is empty. Take it out."
    if (substr(s, 1, 1) != "(")
        return "it does not begin with an opening bracket."
    depth = 0
    for (i = 1; i <= length(s); i++) {
        c = substr(s, i, 1)
        if (c == "(")
            depth++
        else if (c == ")")
            depth--
        if (depth > 32) {
            at = i
            return "byte " i " opens a 33rd bracket inside the others; 32 are allowed."
        }
        if (depth == 0 && i < length(s)) {
            at = i
            return "its first bracket is closed at byte " i ", and more follows."
        }
    }
    at = length(s)
    return "at its end " depth (depth == 1 ? " bracket is" : " brackets are") " still open."
}

# What is seen to be badly written, without the whole grammar.
function ill_written(s,    head) {
    if (match(s, /  |\( | \)/)) {
        at = substr(s, RSTART, 2) == " )" ? RSTART : RSTART + 1
        return "a space too many at byte " at "."
    }
    if (match(s, /\)[^ )]|[^ (]\(/)) {
        at = RSTART
        return "a space is missing behind byte " at "."
    }
    if (match(s, /[ (]-?0[0-9]+[ )]/)) {
        at = RSTART + 1
        return "a number has a leading zero at byte " at "."
    }
    head = substr(s, 2)
    sub(/[ ()].*/, "", head)
    if (!(head in is_head))
        return head == "" ? "it has no head word." : "no line has the head word " shortened(head) "."
    return "wrong parts, an unknown word inside it, or a badly written number. docs/FORMAT.md has the parts of a " head " line."
}

function shortened(word) {
    return length(word) > 40 ? substr(word, 1, 37) "..." : word
}

# The first number that is out of its range, and that range.
function out_of_range(l,    n, k, what) {
    n = cut_up(line[l])
    for (k = 2; k < n; k++) {
        what = number_at(k)
        if (what != "" && !is_in_range(T[k], what))
            break
    }
    at = P[k]
    if (what == "val")
        say(shortened(T[k]) " is out of range: the value of a val line goes from -2,147,483,648 to 2,147,483,647.")
    else if (what == "number")
        say(shortened(T[k]) " is out of range: places and numbers in expressions go from 0 to 2,147,483,647.")
    else
        say(shortened(T[k]) " is out of range: " what " goes from 0 to 255.")
}

# What the number at k is, by the head word of its form; nothing where there is none. The number of a module
# line has no range: it is the next or out of place.
function number_at(k) {
    if (T[k] == "f" && T[k - 1] == "(")
        is_name[behind(k + 1)] = 1
    else if (T[k] == "inst" && T[k - 1] == "(")
        is_module[behind(k + 2)] = 1
    if (T[k] !~ /^-?[0-9]+$/ || T[2] == "module")
        return ""
    if (k in is_module)
        return "the module of an instance"
    if (k in is_name || T[k - 1] in has_name || T[k - 2] == "port")
        return "a name"
    return T[k - 2] == "val" ? "val" : "number"
}

function is_in_range(number, what) {
    if (what == "val" || what == "number")
        return number >= -2147483648 && number <= 2147483647
    return number <= 255
}

function out_of_place(l,    head) {
    look_through(l - 1)
    cut_up(line[l])
    head = T[2]
    if (head == "module")
        say("Line " l " begins module " shortened(T[3]) ", and the next number is " modules ": modules count from 0, without a gap.")
    else if (modules == 0)
        say("Line " l " stands before any module: begin with a module line.")
    else
        say("Line " l " is a " head " line behind an item of module " m ": kind and val lines stand before all items.")
}

function twice(l,    name) {
    look_through(l - 1)
    cut_up(line[l])
    name = T[3]
    if (T[2] == "module") {
        say("Line " l " begins a 33rd module; a text has at most 32.")
        return
    }
    say("Line " l " gives name " name " a second kind in module " m ", be it the same: keep one of the two.")
    show_line(kind_line[m, name], 1, "")
}

# The cause is found by the model, which is not proved; the caller asks it.
function limit() {
    say("A working limit is passed, or a constant that is evaluated, or a part of one, is outside -2,147,483,648 to 2,147,483,647. There is no list.")
    if (why == "") {
        say("Limits: 512 nodes, 4,096 edges, 1,024 sites, 512 pairs of name and block in a module; 1,024 triples in the text (docs/FORMAT.md).")
        say("Which of these it is could not be found here: the program that tells it is built with cargo. The check does not need it.")
        return
    }
    say(why advice())
    say("This is the first cause that was come to; there may be others. It is found by a program beside the proved one, and is not proved.")
    look_through(lines)
    if (match(why, / line [0-9]+/))
        show_line(substr(why, RSTART + 6, RLENGTH - 6) + 0, 1, "")
    else if (match(why, /summary of module [0-9]+/))
        show_line(module_line[substr(why, RSTART + 18, RLENGTH - 18)], 1, "")
}

function advice() {
    if (why ~ / sites /)
        return " Drive ranges of bits, or divide the module."
    return why ~ /^With line / ? " Divide the module into smaller ones." : ""
}
