# Says what an answer of the proved programs means for a text: a refusal with its line, a caret under the place and what to do; or the functions that remarks names.
# Reads refusals.txt, characters.txt and the text's bytes as od -An -v -tu1 prints them. The environment has ANSWER (the program's line), NAME (the text's), MOST (the bytes that were read at most), and LOW, HIGH and STEPS.
# Nothing here decides what is refused: where its own reading of the text does not stop at the refusal's place, it only says less.

FILENAME ~ /refusals\.txt$/ { split($0, cell, / *\| */); what[cell[2]] = cell[3]; todo[cell[2]] = cell[5]; next }
FILENAME ~ /characters\.txt$/ { split($0, cell, "\t"); strange[cell[1]] = cell[2]; instead[cell[1]] = cell[3]; next }
{ for (i = 1; i <= NF; i++) byte[size++] = $i + 0 }

END {
    for (i = 1; i < 256; i++) char[i] = sprintf("%c", i)
    split(ENVIRON["ANSWER"], answer, " ")
    if (answer[1] == "accepted") {
        tokens()
        for (i = 2; i in answer; i++) print where(answer[i]) ": nothing that `main` calls leads to `" word[token_at(answer[i])] "`. Call it, or take it out."
    } else if (answer[2] >= 11 && answer[2] <= 16) {
        number = answer[2]
        print "plans: " what[number] argument(number) "."
        print todo[number]
    } else {
        number = answer[2]; place = answer[4] + 0
        if (number > 2) { tokens(); at = token_at(place) }
        detail = details(number)
        print where(place) ": " what[number] (detail == "" ? "" : ": " detail) "."
        show(place)
        if (cause != "") print cause
        print todo[number]
    }
}

# FILE:LINE:COLUMN of a place, both from 1.
function where(place,    i, line, start) {
    line = 1
    for (i = 0; i < place; i++) if (byte[i] == 10) { line++; start = i + 1 }
    return ENVIRON["NAME"] ":" line ":" (place - start + 1)
}

function line_of(place,    i, line) {
    line = 1
    for (i = 0; i < place; i++) if (byte[i] == 10) line++
    return line
}

# The place's line and a caret under it; of a long line the part around it. Tabs are kept, other control bytes shown as ?.
function show(place,    from, to, i, line, under) {
    for (from = place; from > 0 && byte[from - 1] != 10; from--) ;
    for (to = place; to < size && byte[to] != 10; to++) ;
    if (to > from && byte[to - 1] == 13) to--
    if (to == from) return
    if (place - from > 60) { from = place - 50; line = "... "; under = "    " }
    while (byte[from] >= 128 && byte[from] < 192) from++
    for (i = from; i < to && i < from + 100; i++) line = line shown(i)
    print line (i < to ? " ..." : "")
    for (i = from; i < place; i++) if (byte[i] == 9) under = under "\t"; else if (byte[i] < 128 || byte[i] >= 192) under = under " "
    print under "^"
}

# A byte to be shown: control bytes, and those that are no part of a character in UTF-8, as ?.
function shown(i,    j) {
    if (byte[i] == 9 || byte[i] >= 32 && byte[i] < 127) return char[byte[i]]
    for (j = i; j > i - 4 && byte[j] >= 128 && byte[j] < 192; j--) ;
    return j + length_at(j) > i ? char[byte[i]] : "?"
}

# The bytes of the character of two or more in UTF-8 at i, no control character; 0 if there is none.
function length_at(i,    n, k) {
    n = byte[i] >= 240 && byte[i] < 245 ? 4 : byte[i] >= 224 && byte[i] < 240 ? 3 : byte[i] >= 194 && byte[i] < 224 ? 2 : 0
    for (k = 1; k < n; k++) if (i + k >= size || byte[i + k] < 128 || byte[i + k] >= 192) return 0
    return byte[i] == 194 && byte[i + 1] < 160 ? 0 : n
}

# Tokens 1 to last, the end being the last: kind, word and place. A kind is name, number, end, or the word or mark itself.
function tokens(    i, n, words) {
    split("int free if else while return fail true false", words, " ")
    for (i = 1; i in words; i++) reserved[words[i]]
    for (i = 0; i < size; i += n) {
        n = 1
        if (is_blank(byte[i])) continue
        word[++last] = char[byte[i]]; token_place[last] = i; kind[last] = word[last]
        if (is_letter(byte[i])) {
            for (; is_letter(byte[i + n]) || is_digit(byte[i + n]) || byte[i + n] == 95; n++) word[last] = word[last] char[byte[i + n]]
            kind[last] = word[last] in reserved ? word[last] : "name"
        } else if (is_digit(byte[i])) {
            for (n = number_size(i); length(word[last]) < n;) word[last] = word[last] char[byte[i + length(word[last])]]
            kind[last] = "number"
        } else if (index(" <= >= == != && || .. ", " " word[last] char[byte[i + 1]] " ")) {
            kind[last] = word[last] = word[last] char[byte[i + 1]]; n = 2
        }
    }
    word[++last] = "the end of the text"; token_place[last] = size; kind[last] = "end"
}
# The bytes of the number at i, up to its last digit.
function number_size(i,    n, digits) {
    for (n = digits = 1; is_digit(byte[i + n]) || byte[i + n] == 95; n++) if (is_digit(byte[i + n])) digits = n + 1
    return digits
}
function is_blank(b) { return b == 32 || b == 9 || b == 10 || b == 13 }
function is_digit(b) { return b >= 48 && b <= 57 }
function is_letter(b) { return b >= 65 && b <= 90 || b >= 97 && b <= 122 }
function token_at(place,    i) { for (i = 1; i < last && token_place[i] < place; i++) ; return i }
function quoted(i) { return kind[i] == "end" ? word[i] : "`" word[i] "`" }

# What more there is to say of a refusal; cause is left as a sentence of its own.
function details(number) {
    if (number == 1) return "it has " size (size < ENVIRON["MOST"] + 0 ? "" : " or more")
    if (number == 2) return stray()
    if (number == 3) return kind[at] == "name" ? "this name has " length(word[at]) : quoted(at)
    if (number == 4) return syntax()
    if (number == 6) return naming()
    if (number == 7) return calling()
    if (number == 8) return last == 1 ? "the text is empty" : kind[at] == "end" ? "the text has no `main`" : "`main` has parameters"
    if (number == 9) return "it is that of `" word[head()] "`"
    if (number == 17) return holding()
    if (number == 18) return "`" pair() "`"
    if (number == 19) return "`" pair() "` are " sprintf("%.0f", high_end - low_end + 1)
    if (number == 10) return head() == at ? "this is the 17th function" : nesting ? "this is the 17th declaration in `" word[head()] "`" : "this is the 5th parameter"
    return ""
}

# For 18 and 19: the pair whose low end begins at the place, in low_end and high_end its ends.
function pair(    i, text) {
    for (i = at; i < last && kind[i] != ";"; i++) text = text (text == "" || kind[i - 1] == "-" ? "" : " ") word[i]
    i = index(text, "..")
    low_end = substr(text, 1, i - 1); high_end = substr(text, i + 2)
    gsub(/[_ ]/, "", low_end); gsub(/[_ ]/, "", high_end)
    return text
}

# The character at the place, by its name where characters.txt has it.
function stray(    n, i, code, text) {
    for (n = 3; n > 0; n--) {
        code = ""
        for (i = 0; i < n && place + i < size; i++) code = code sprintf("%02X", byte[place + i])
        if (code in strange) { cause = instead[code]; return strange[code] }
    }
    n = length_at(place)
    for (i = 0; i < n; i++) text = text char[byte[place + i]]
    if (n) { cause = "Names, numbers and marks are plain ASCII."; return "`" text "`" }
    return byte[place] > 32 && byte[place] < 127 ? "`" char[byte[place]] "`" : "the byte " byte[place]
}

# The token of the name of the function in which the place's token stands; nesting is then the braces that are open around it.
function head(    i, found) {
    nesting = 0
    for (i = 1; i <= at; i++) {
        if (nesting == 0 && kind[i] == "name" && kind[i + 1] == "(") found = i
        if (kind[i] == "{") nesting++
        if (kind[i] == "}" && i < at) nesting--
    }
    return found
}

function naming(    i, from) {
    from = head()
    if (kind[at - 1] == "int") {
        for (i = at - 1; i >= (from == at ? 1 : from); i--)
            if (word[i] == word[at] && kind[i - 1] == "int" && (kind[i + 1] == "(") == (from == at))
                return "`" word[at] "` is declared already, in line " line_of(token_place[i])
        return "`" word[at] "` is declared already"
    }
    foreign(at)
    if (kind[at + 1] == "(") return "there is no function `" word[at] "`"
    for (i = from; i < last && !(kind[i] == "int" && word[i + 1] == word[at]); i++) ;
    return "`" word[at] "`" (i >= last ? " is not declared" : " can't be seen here: it is declared in line " line_of(token_place[i]) (i > at ? ", later" : ", in a block that has ended"))
}

# For 17: where the name is declared, and whether a statement before this one gives it a value on some way.
function holding(    i, line, ended) {
    for (i = at - 1; i > 1 && !(word[i] == word[at] && kind[i - 1] == "int"); i--) {
        if (kind[i] == ";") ended = 1
        if (ended && word[i] == word[at] && kind[i + 1] == "=" && !line) line = line_of(token_place[i])
    }
    if (line) cause = "It is given a value in line " line ", but a run may come here another way: an arm or a loop's body need not be worked."
    return "`" word[at] "` is declared in line " line_of(token_place[i]) " and " (line ? "not given a value on every way" : "given no value before this")
}

function calling(    i, depth, given, wanted, line) {
    for (i = at + 1; i < last; i++) {
        if (kind[i] == "(") depth++
        if (kind[i] == ")" && --depth == 0) break
        if (i > at + 1 && !given) given = 1
        if (kind[i] == "," && depth == 1) given++
    }
    for (i = 1; i < last; i++) {
        if (depth == 0 && kind[i - 1] == "int" && word[i] == word[at] && kind[i + 1] == "(") break
        depth += (kind[i] == "{") - (kind[i] == "}")
    }
    line = line_of(token_place[i])
    for (i++; i < last && kind[i] != ")"; i++) if (kind[i] == "int") wanted++
    return "`" word[at] "` has " wanted + 0 (wanted == 1 ? " parameter" : " parameters") " (line " line "), and " given + 0 (given == 1 ? " argument is" : " arguments are") " given"
}

# The argument that is meant by a refusal of the job.
function argument(number,    low, high) {
    low = ENVIRON["LOW"]; high = ENVIRON["HIGH"]
    if (number == 12) return ": LOW is " low ", HIGH is " high
    if (number == 13) return ": LOW " low " to HIGH " high " are " sprintf("%.0f", high - low + 1)
    if (number == 14) return ": STEPS is " ENVIRON["STEPS"]
    if (number == 16) return wrong("LOW") wrong("HIGH") wrong("STEPS")
}
function wrong(name,    value, digits) {
    value = digits = ENVIRON[name]
    sub(/^-/, "", digits)
    if (length(digits) > 10) return ": " name " has over ten digits, " value
    if (value + 0 > 2147483647) return ": " name " is above 2147483647, " value
    if (value + 0 < -2147483648) return ": " name " is below -2147483648, " value
    if (name == "STEPS" && value + 0 < 0) return ": " name " is below 0, " value
    return ""
}

# For 4: the token, and what could have stood in its place.
function syntax(    i, list) {
    if (parse() != at) return quoted(at)
    cause = causes(at)
    for (i = 1; i <= could; i++) list = list (i == 1 ? "" : i == could ? " or " : ", ") choice[i]
    return quoted(at) ", where " list " could stand"
}

# The grammar, by the next token: for a symbol and each of the first tokens, the symbols that it stands for.
function rule(symbol, firsts, symbols,    i, first) {
    split(firsts, first, " ")
    for (i = 1; i in first; i++) becomes[symbol, first[i]] = symbols
}
# What stands for a symbol before any other token; and its name for a reader.
function otherwise(symbol, symbols) { before_other[symbol] = symbols }
function named(symbol, words) { called[symbol] = words }

function grammar(    operand, i, comparison) {
    operand = " number - name ( "
    rule("Program", "int", "int name ( Parameters { Statements Program"); rule("Program", "end", "end")
    rule("Parameters", ")", ")"); rule("Parameters", "int", "int name Parameter")
    rule("Parameter", ")", ")"); rule("Parameter", ",", ", int name Parameter")
    rule("Statements", "}", "}"); rule("Statements", "; { if while int return fail" operand, "Statement Statements")
    rule("Statement", ";", ";"); rule("Statement", "{", "{ Statements"); rule("Statement", "fail", "fail ;")
    rule("Statement", "if", "if ( Condition ) Statement else Statement"); rule("Statement", "while", "while ( Condition ) Statement")
    rule("Statement", "int", "int name Free ;"); rule("Free", "free", "free Pair"); otherwise("Free", "")
    rule("Pair", "number -", "End .. End"); otherwise("Pair", ""); rule("End", "number", "number"); rule("End", "-", "- number")
    rule("Statement", "return", "return Sum ;"); rule("Statement", "number - (", "Sum ;")
    rule("Statement", "name", "name Value ;"); rule("Value", "=", "= Sum"); otherwise("Value", "Call Factors Terms")
    rule("Sum", operand, "Product Terms"); rule("Terms", "+", "+ Product Terms"); rule("Terms", "-", "- Product Terms"); otherwise("Terms", "")
    rule("Product", operand, "Operand Factors"); rule("Factors", "*", "* Operand Factors"); otherwise("Factors", "")
    rule("Operand", "number", "number"); rule("Operand", "-", "- number"); rule("Operand", "name", "name Call"); rule("Operand", "(", "( Sum )")
    rule("Call", "(", "( Arguments"); otherwise("Call", "")
    rule("Arguments", ")", ")"); rule("Arguments", operand, "Sum Argument")
    rule("Argument", ")", ")"); rule("Argument", ",", ", Sum Argument")
    rule("Condition", "true false" operand, "Test Tests"); rule("Tests", "&&", "&& Test Tests"); rule("Tests", "||", "|| Test Tests"); otherwise("Tests", "")
    rule("Test", "true", "true"); rule("Test", "false", "false"); rule("Test", operand, "Sum Comparison Sum")
    split("< <= > >= == !=", comparison, " ")
    for (i = 1; i in comparison; i++) rule("Comparison", comparison[i], comparison[i])
    named("Program", "a function `int name(..) { .. }` or the end"); named("Parameters", "`int` or `)`"); named("Parameter", "`,` or `)`")
    named("Statements", "a statement or `}`"); named("Statement", "a statement"); named("Free", "`free`"); named("Pair", "a pair"); named("End", "a number or `-`"); named("Value", "`=`")
    named("Sum", "an expression"); named("Product", "an expression"); named("Operand", "an expression"); named("Factors", "an operation"); named("Terms", "")
    named("Call", "`(`"); named("Arguments", "an expression or `)`"); named("Argument", "`,` or `)`")
    named("Condition", "a condition"); named("Test", "a condition"); named("Tests", "`&&` or `||`"); named("Comparison", "a comparison")
    named("name", "a name"); named("number", "a number"); named("end", "the end")
}

# The first token that the grammar can't have there, 0 if there is none. wanted is the symbol that stood against it; choice 1 to could have what else could have stood; passed has what gave way to other tokens; open has the symbols that are still to come.
function parse(    i, symbol, depth, j, part) {
    grammar()
    symbol = "Program"; i = 1; could = 0; depth = 1; open[1] = symbol
    while (depth) {
        symbol = open[depth]; delete open[depth--]
        if (symbol == kind[i]) { i++; could = 0; split("", passed) }
        else if ((symbol, kind[i]) in becomes) depth = push(becomes[symbol, kind[i]], depth)
        else {
            wanted = symbol
            split(symbol in called ? called[symbol] : "`" symbol "`", part, " or ")
            for (j = 1; j in part; j++) choice[++could] = part[j]
            if (!(symbol in before_other)) return i
            passed[symbol]; depth = push(before_other[symbol], depth)
        }
    }
    return 0
}
function push(symbols, depth,    i, part) {
    for (i = split(symbols, part, " "); i; i--) open[++depth] = part[i]
    return depth
}
function awaits(symbol,    i) { for (i in open) if (open[i] == symbol) return 1; return 0 }

# Words of other languages; in cause a sentence on the one that stands at a token.
function foreign(i) {
    if (word[i] ~ /^(for|do|switch|case|break|continue|goto|until|repeat|foreach)$/) cause = "There is no `" word[i] "`: use `while` and `if`."
    if (word[i] ~ /^(void|bool|boolean|long|short|byte|char|float|double|unsigned|var|let|const|String|string|public|private|static|final|class|function|def|fn)$/) cause = "There is no `" word[i] "`: the only type is `int`, and a function begins with it."
    if (word[i] ~ /^(and|or|not|then|print|printf|println|assert|import|include)$/) cause = "There is no `" word[i] "`."
    return cause != ""
}
function touches(i) { return token_place[i] + length(word[i]) == token_place[i + 1] }
function is_comparison(k) { return k ~ /^([<>]=?|[=!]=)$/ }

# The usual cause of a token that can't stand at i.
function causes(i,    k, was, j) {
    k = kind[i]; was = kind[i - 1]
    for (j = i; j > 1 && kind[j] !~ /^[;{}]$/; j--) if (word[j] == "for" && kind[j + 1] == "(") { foreign(j); return cause }
    if (wanted == "Parameters" && word[i] == "void") return "With no parameters write `()`."
    if (foreign(i) || foreign(i - 1)) return cause
    if (wanted == "else" && k == ";" && was == "}") return "No `;` stands between `}` and `else`."
    if (wanted == "else") return "An `else` is missing before this: write `else ;` where there is nothing else to do. An arm of several statements stands in braces."
    if (k == "else") return "This `else` belongs to no `if`: an arm of several statements stands in braces."
    if ("Free" in passed && k == "=") return "A declaration gives no value: write `int " word[i - 1] "; " word[i - 1] " = ..;`."
    if ("Free" in passed && k == ",") return "Declare each number by itself: `int a; int b;`."
    if ("Free" in passed && k == "(") return "A function can't stand within another: a `}` is missing before this."
    if (k == "free" || was == "free" && k == "name") return "Write `int x free;`, or `int x free 5 .. 400;`."
    if (wanted == "..") return "Between the ends of a pair stands `..`, as in `int x free 5 .. 400;`."
    if (k == ".." ) return "`..` stands only between the two ends of a pair, which are numbers: `int x free 5 .. 400;`."
    if (k == "+" && (was == "+" && touches(i - 1) || kind[i + 1] == "+" && touches(i))) return "There is no `++`: write `x = x + 1;`."
    if (was == "-" && (kind[i - 2] == "-" && touches(i - 2) || k == "-" && touches(i - 1))) return "There is no `--`: write `x = x - 1;`."
    if (k == "=" && was ~ /^[-+*]$/ && touches(i - 1)) return "There is no `" was "=`: write `x = x " was " ..;`."
    if (wanted == "number" && was == "-") return "A minus stands only before a number: write `0 - x`."
    if (k == "=" && kind[i + 1] ~ /^[<>]$/ && touches(i)) return "Write `" kind[i + 1] "=`."
    if (k == ">" && was == "<" && touches(i - 1)) return "Write `!=`."
    if (wanted == "Comparison" && k == "=") return "To compare, write `==`; a single `=` gives a value."
    if (wanted == "Comparison") return "A condition compares two expressions, as `x != 0`."
    if (k == "=" && "Tests" in passed) return "To compare, write `==`; a single `=` gives a value."
    if ("Tests" in passed && is_comparison(k)) return "Two comparisons have `&&` between them: `a < b && b < c`."
    if ((k == "&&" || k == "||" || is_comparison(k)) && wanted ~ /^(\)|;|Argument)$/) return awaits("Comparison") || awaits("Tests") ? "No brackets stand round conditions: `&&` goes before `||`." : "A comparison stands only in the brackets of `if` and `while`."
    if (k ~ /^(true|false)$/) return "`true` and `false` are conditions, no numbers: use 1 and 0."
    if (was == "return" && k == ";") return "`return` needs a value."
    if (wanted == "{" && k == ";") return "A function has its body here; it may be called before it stands in the text."
    if (wanted == "Parameters" || wanted == "int" && was == ",") return "Each parameter is written `int name`."
    if (wanted == "name" && k in reserved) return "`" k "` is a word of the language and can't be a name."
    if (wanted == "Program") return k == "}" ? "There is a `}` too many, here or before." : "Outside functions nothing else stands; there may be a `}` too many before."
    if (k == "end") return wanted ~ /^Statement/ ? "A `}` is missing." : "The text breaks off."
    if (was == "name" && k != ";" && tolower(word[i - 1]) in reserved) return "`" word[i - 1] "` is a name; the word is `" tolower(word[i - 1]) "`."
    if (wanted == ";" && k ~ /^(int|if|while|return|fail|name|number|[{}])$/) return "A semicolon may be missing before this, after " quoted(i - 1) " in line " line_of(token_place[i - 1]) "."
    return ""
}
