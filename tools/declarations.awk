# Reads files of antt by declarations: a line at the margin with the indented lines below it. Comments and empty lines are taken off, and white space of
# any kind and amount is one blank. Give it each line by read_declarations(), and call end_declarations() at the end. The program that takes it in has
#     fault(text)               something is wrong
#     declaration_read(text)    a declaration; declared_at says its file and line, declared_in its file
# and may ask form_of(text), parse_statement(text) and parse_use(text) of it. A comment {- -}, a quote and an escaped name are faults: what is not read here
# cannot be judged.

# the words with which a theorem of one answer begins, one about wrong engines, and of these one that says nothing of an answer
BEGIN {
    one_answer = "Fixes|FixesTyped|FixesLent"
    wrong_engine = "NoConstant|NotAlways|Never|NotAsking|NotAskingLent|Excluded"
    of_no_answer = "NotAsking|NotAskingLent|Excluded"
    no_name = "^(pattern|data|record|deriving|module|where|use|mod|pub|package|using|open|as|unfoldable|abbrev|axiom|unfold|unfolding|ruleset|mutual|infix|infixl|infixr|elim|let|in|do)$"
}

# is the file there?
function stands(file,    line) {
    if (!(file in standing)) {
        standing[file] = (getline line < file) >= 0
        close(file)
    }
    return standing[file]
}

# a character that may end a line for others, or part two words, and does not here, could hide what follows it
function judge_characters() {
    if ($0 ~ /[\001-\010\013-\037]|\302[\205\240]|\341\232\200|\342\200[\200-\217\250-\257]|\342\201[\237\240]|\343\200\200|\357\273\277/) fault(FILENAME ":" FNR ": a control character, or a blank of another kind, is not read here")
}

# the line without its comment
function without_comment(line) {
    if (line ~ /^[ \t]*---*([ \t]|$)/) return ""
    if (line ~ /[{]-|-[}]|"|«|»/ || line ~ /(^|[ \t(){}.;,@])--+[^- \t]/) fault(FILENAME ":" FNR ": a block comment, a quote or an escaped name is not read here")
    sub(/[ \t]---*([ \t].*)?$/, "", line)
    return line
}

function read_declarations(    line) {
    if (FNR == 1) end_declarations()
    judge_characters()
    line = without_comment($0)
    if (line ~ /^[ \t]*$/) return
    if (line ~ /^[^ \t]/) {
        end_declarations()
        declared_in = FILENAME
        declared_at = FILENAME ":" FNR
    } else if (declaration == "") fault(FILENAME ":" FNR ": a line that belongs to nothing")
    declaration = declaration " " line
}

function end_declarations(    text) {
    text = declaration
    declaration = ""
    gsub(/[ \t]+/, " ", text)
    gsub(/^ | $/, "", text)
    if (text != "") declaration_read(text)
}

# What a declaration is: "use", "signature", "clause" (of a name whose signature stands above it), "unfolding", or "end" (of a record that is open); declared_name is
# the name of the second and third. Whatever else it may be, as a `module`, a `mod`, a `data` or a `pub use`, is "".
function form_of(text,    own) {
    if (text ~ /^use /) return "use"
    if (text ~ /^unfolding( [^ :=(){}.;,@]+)+$/) return "unfolding"
    if (text ~ /^[})]+$/) return "end"
    own = text
    sub(/^(unfoldable )?(abbrev )?(pub )?/, "", own)
    declared_name = own
    sub(/ .*$/, "", declared_name)
    if (declared_name ~ no_name || declared_name ~ /[(){}.;,@]/ || is_parted(text)) return ""
    if (substr(own, length(declared_name) + 1) ~ /^( [{][^{}:=]*[}])? : /) {
        signed[declared_in, declared_name] = 1
        return "signature"
    }
    return own == text && ((declared_in, declared_name) in signed) && text ~ / =( |$)/ ? "clause" : ""
}

# does a `;` stand in it outside of braces, so that it may be more than one declaration?
function is_parted(text) {
    while (gsub(/[{][^{}]*[}]/, "", text)) continue
    sub(/[{].*$/, "", text)
    return text ~ /;/
}

# the words of a text, as antt takes it apart: word[1] and so on; a path a.b is one word
function words_of(text, word) {
    gsub(/[(){};,@]/, " ", text)
    gsub(/^ +| +$/, "", text)
    return split(text, word, / +/)
}

# the names by which a name can be written: whole, or by the parts of an operator. `Fixes◌` would be written as `Fixes` is, and `◌≡◌` as `≡`.
function spellings(name, spelling,    n, i, part, count) {
    spelling[count = 1] = name
    n = split(name, part, "◌")
    for (i = 1; n > 1 && i <= n; i++) if (part[i] != "") spelling[++count] = part[i]
    return count
}

# Of a public declaration with a statement: 1, with its marks ("unfoldable " or ""), theorem and statement, which is "" where more than the name stands before the colon.
function parse_statement(text) {
    if (text !~ /^(unfoldable )?(abbrev )?pub [^ ]+ / || text ~ /^(unfoldable )?pub (use|mod|data|record|ruleset) /) return 0
    marks = text
    sub(/pub .*$/, "", marks)
    theorem = text
    sub(/^(unfoldable )?(abbrev )?pub /, "", theorem)
    statement = theorem
    sub(/ .*$/, "", theorem)
    statement = substr(statement, length(theorem) + 1, 3) == " : " ? substr(statement, length(theorem) + 4) : ""
    return 1
}

# Of a `use`: 1, with used_path and the names that it brings: item[i] is known here as known[i], and full[i] is its whole path. Where it brings the module itself,
# items is 1 and item[1] is "".
function parse_use(text,    i) {
    gsub(/[ \t]+/, " ", text)
    sub(/^ ?use /, "", text)
    sub(/ ?;$/, "", text)
    used_path = text
    if (text ~ /^[^ {}]+[.][{][^{}]*[}]$/) {
        sub(/[.][{].*$/, "", used_path)
        sub(/^.*[{] ?/, "", text)
        sub(/,? ?[}]$/, "", text)
        items = split(text, item, / ?, ?/)
        for (i = 1; i <= items; i++) {
            known[i] = item[i]
            sub(/ as .*$/, "", item[i])
            sub(known[i] ~ / as / ? "^.* as " : "^.*[.]", "", known[i])
            full[i] = used_path "." item[i]
        }
        return 1
    }
    items = 1
    item[1] = ""
    sub(/ as .*$/, "", used_path)
    known[1] = text
    sub(text ~ / as / ? "^.* as " : "^.*[.]", "", known[1])
    full[1] = used_path
    return text ~ /^[^ {}]+( as [^ {}]+)?$/ && text !~ /[.][*]$/
}
