# Reads the code (.rt) by tokens. White space of any kind and amount, and comments, stand between tokens; what a string says is not looked at. Give it
# each line by read_code(), and call end_code() at the end. The program that takes it in has these functions, which are called as the text is read:
#     fault(text)         something is wrong
#     head_read()         a function with its clauses; below are the names of what is known of it
#     body_read()         the same function, now with its code
#     import_read(text)   a `ghost use`, as text
#     ghost_read(text)    what a ghost field of the struct `name` says, or, where `kind` is "ghost", what a member of a trait's `impl` is
#     item_read()         any other item but a `mod`, whose file is read: `kind` is its word, as `use` or `struct`
# Whatever is not known here is a fault by file and line, so that nothing is passed over: an attribute but `no_mangle`, `export_name`, `tactic` and `derive`
# of what the language derives, a function inside a function or inside `mod x { .. }`, in a library an `impl` that is more than one type's name, a clause with
# a star, a raw string, a `pub use` of anything but a type, and so on.
#     crate, module, type    where the function stands; module is "" in lib and main, type is "" outside `impl`
#     program, trait         1 where the crate has src/main.rt, so that no other can stand on it; 1 inside the `impl` of a trait, which only a program may have
#     name, at               its name, and its file and line
#     visible                "pub", "crate" or "own"
#     exported               1 where it carries `no_mangle` or `export_name`, or is `extern "C"`; for_linkers is 1 where it is `pub`, and both `no_mangle` and `extern "C"`
#     public                 1 where it is `pub`, or exported
#     asks, ensures          1 where it has a `requires` or a `ghost` clause, and where it has an `ensures`
#     clauses, code          the text of its clauses, and the tokens of its body with a blank before and after each
#     signature, stated      the tokens from its name to its result's type; its clauses once more, each with its word and its name
#     derives                the text of the `derive` above a type, without blanks
# Of a type, by "crate::Type": type_home is the module in which it is declared, type_visible who can see it, and type_parts the tokens of its fields.

# What the language itself derives; a `derive` of another name is a macro, which may write anything. Of a public type it makes functions that anyone can call. Of the text that
# `Debug` writes the language's contract says nothing, and what an order, a hash or a default value answers nobody here tells; so in a library no public type has these.
BEGIN {
    derivable = "(Drop|Clone|Copy|PartialEq|Eq|PartialOrd|Ord|Hash|Debug|Default)"
    own_derives = "^derive[(]" derivable "(," derivable ")*,?[)]$"
    untold_derives = "[(,](PartialOrd|Ord|Hash|Debug|Default)[,)]"
    trait_path = "[A-Za-z_][A-Za-z0-9_]*( : : [A-Za-z_][A-Za-z0-9_]*)*"
    trait_impl = "^impl (< [A-Za-z0-9_:,' ]* > )?" trait_path "( < [][A-Za-z0-9_<>:;,&' ]* >)? for [A-Z][A-Za-z0-9_]*( < [A-Za-z0-9_,' ]* >)? [{]$"
}

function unread(what) { fault(FILENAME ":" FNR ": " what " is not read here") }

function begin_code(    part) {
    end_code()
    if (FILENAME !~ /^crates\/[^\/]+\/src\/[^\/]+[.]rt$/) fault(FILENAME " stands in a folder that is not read here")
    split(FILENAME, part, "/")
    crate = part[2]
    module = part[4]
    sub(/[.]rt$/, "", module)
    if (module == "lib" || module == "main") module = ""
    program = stands("crates/" crate "/src/main.rt")
    code_file = FILENAME
}

# between two files: nothing may be open
function end_code() {
    if (words || comment || inside != "" || type != "" || antt_ends != "") fault(code_file " ends inside something that began there")
    words = nested = comment = attribute_open = trait = 0
    inside = type = antt_ends = ghost_field = closure_clause = ""
}

function read_code(    token) {
    if (FNR == 1) begin_code()
    judge_characters()
    rest = $0
    while (rest != "") {
        if (comment) skip_comment()
        else if (antt_ends != "") read_antt()
        else if ((token = next_token()) != "") take(token)
    }
    if (antt_ends != "") antt = antt " "
}

# the next token of the line; "" where white space or a comment was taken off. Between the brackets of an attribute a tactic may be given names of antt.
function next_token(    token) {
    if (match(rest, /^[ \t]+/)) { rest = substr(rest, RLENGTH + 1); return "" }
    if (rest ~ /^\/\//) { rest = ""; return "" }
    if (rest ~ /^\/\*/) { skip_comment(); return "" }
    if (attribute_open && match(rest, /^[A-Za-z_\200-\377][A-Za-z0-9_'\200-\377]*/)) {
        token = substr(rest, 1, RLENGTH)
        rest = substr(rest, RLENGTH + 1)
        return token
    }
    if (rest ~ /^[bc]?r#*"/ || !(match(rest, /^[bc]?"([^"\\]|\\.)*"/) || match(rest, /^b?'([^'\\]|\\.[^']*)'/) ||
            match(rest, /^'?[A-Za-z_][A-Za-z0-9_]*/) || match(rest, /^[0-9][A-Za-z0-9_]*/) || match(rest, /^[][(){}<>:;,.=&|*+%^!?#@\/-]/))) {
        unread("`" substr(rest, 1, 20) "`")
        rest = ""
        return ""
    }
    token = substr(rest, 1, RLENGTH)
    rest = substr(rest, RLENGTH + 1)
    return token
}

# comments /* */ stand in one another
function skip_comment() {
    if (match(rest, /\/\*|\*\//)) {
        comment += substr(rest, RSTART, 1) == "/" ? 1 : -1
        rest = substr(rest, RSTART + 2)
    } else rest = ""
}

# antt's own text, which is one piece to the code: up to the brace that closes a clause or a ghost item, or to the `;` of a `ghost use`
function read_antt(    part, last) {
    part = match(rest, /[{};]/) ? substr(rest, 1, RSTART) : rest
    rest = substr(rest, length(part) + 1)
    last = substr(part, length(part))
    if (part ~ /--|\/\/|\/\*|["']|«|»/ || last == "{" && rest ~ /^-/) unread("a comment, a quote or an escaped name in a clause")
    antt = antt part
    antt_depth += (last == "{") - (last == "}")
    if (antt_depth == 0 && last == antt_ends) antt_read()
}

function begin_antt(ends, depth) {
    antt = ""
    antt_ends = ends
    antt_depth = depth
}

function antt_read() {
    antt_ends = ""
    if (inside != "") depth--
    if (inside == "function") code = code "} "
    else if (inside == "fields") {
        ghost_field = ghost_field "} "
        ghost_read(substr(antt, 1, length(antt) - 1))
    } else if (head[1] == "ghost" && head[2] == "use") {
        words = 0
        import_read("use " antt)
    } else if (head[1] == "ghost") ghost_read(substr(antt, 1, length(antt) - 1))
    else clause_read()
}

function clause_read(    i) {
    if (head[clause_at] == "ensures") ensures = 1
    else asks = 1
    clauses = clauses " " substr(antt, 1, length(antt) - 1)
    for (i = clause_at; i <= words; i++) stated = stated " " head[i]
    stated = stated " " antt
    gsub(/[ \t]+/, " ", stated)
    words = clause_at - 1
}

# Where the head ends in a clause that opens here: the place of its word, and else 0. `requires {`, `requires room {`, and the same with `ensures`; `ghost n: {`.
function clause_opens() {
    if (head[words - 1] ~ /^(requires|ensures|ghost)$/) return words - 1
    if (head[words - 2] ~ /^(requires|ensures)$/ && head[words - 1] ~ /^[a-z_]/) return words - 2
    return head[words - 1] == ":" && head[words - 3] == "ghost" ? words - 3 : 0
}

function take(token) {
    if (inside == "") take_in_head(token)
    else if (token == "}" && depth == 1) close_block()
    else {
        depth += (token == "{") - (token == "}")
        if (inside == "function") take_in_body(token)
        else if (inside == "fields") take_in_fields(token)
        last_token = token
    }
}

function open_block(what) {
    inside = what
    depth = 1
    last_token = ""
    words = 0
}

function close_block() {
    if (inside == "function") body_read()
    if (ghost_field !~ /^$|[}] $/) unread("`}` of a `ghost` inside a type")
    inside = ghost_field = ""
}

function take_in_body(token) {
    if (token ~ /^(fn|pub|impl|mod|extern|trait|macro_rules)$/) unread("`" token "` inside a function")
    code = code token " "
    if (token ~ /^(requires|ensures)$/ || closure_clause != "") take_in_closure_clause(token)
}

# a clause of a closure, `ensures {` or `ensures name {`: what the enclosing function shows, and asks of nobody; what it says is antt's
function take_in_closure_clause(token) {
    closure_clause = closure_clause token " "
    if (closure_clause ~ /^(requires|ensures) ([a-z_][A-Za-z0-9_]* )?[{] $/) begin_antt("}", 1)
    else if (closure_clause ~ /^(requires|ensures) ([a-z_][A-Za-z0-9_]* )?$/) return
    else unread("`" token "` in a closure's clause")
    closure_clause = ""
}

function take_in_fields(token) {
    if (token ~ /^(fn|impl|mod|extern|trait)$/) unread("`" token "` inside a type")
    if (last_token == "pub" && token !~ /^[A-Za-z_&[(]/) unread("`pub " token "` inside a type")
    if (token == "ghost" || ghost_field != "") take_in_ghost_field(token)
    else type_parts[crate "::" name] = type_parts[crate "::" name] token " "
}

# `ghost name: { .. }` between a struct's own braces, and behind it a comma or the end; what it says is antt's
function take_in_ghost_field(token) {
    if (ghost_field ~ /[}] $/ && token == ",") { ghost_field = ""; return }
    ghost_field = ghost_field token " "
    if (ghost_field ~ /^ghost [a-z_][A-Za-z0-9_]* : [{] $/) begin_antt("}", 1)
    else if (ghost_field !~ /^ghost ([a-z_][A-Za-z0-9_]* (: )?)?$/ || token == "ghost" && (kind != "struct" || last_token !~ /^,?$/)) {
        unread("`" token "`" (token == "ghost" ? "" : " of a `ghost`") " inside a type")
        ghost_field = ""
    }
}

# the head of an item: up to its `;`, or to the `{` of its body
function take_in_head(token) {
    if (!words && token == "}" && type != "") { type = ""; trait = 0; return }
    if (!words) begin_head()
    head[++words] = token
    if (token == "[" && !nested && (head[words - 1] == "#" || head[words - 2] == "#" && head[words - 1] == "!")) attribute_open = 1
    if (token ~ /^[])]$/ || token == "}" && nested) {
        nested--
        if (!nested) attribute_open = 0
        if (!nested && token == "]" && head[2] == "!") inner_attribute()
    }
    else if (token ~ /^[[(]$/ || token == "{" && nested) nested++
    else if (nested) return
    else if (token == "{") head_opens()
    else if (token == ";") head_ends()
    else if (words == 2 && head[1] == "ghost" && token == "use") begin_antt(";", 0)
}

function begin_head() {
    at = FILENAME ":" FNR
    nested = asks = ensures = attribute_open = 0
    split("", head)
    clauses = stated = signature = ""
    code = " "
}

# `#![..]`, which is an item of its own
function inner_attribute(    i, attribute) {
    for (i = 4; i < words; i++) attribute = attribute head[i]
    if (head[1] != "#" || head[3] != "[" || attribute !~ /^tactic[(]/) unread("the attribute `" attribute "`")
    words = 0
}

# what the head says up to the item's own word: attributes, who can see it, and how a function is called
function parse_head(    i, attribute, no_mangle, as_c) {
    exported = no_mangle = as_c = 0
    visible = "own"
    derives = ""
    for (i = 1; head[i] == "#" && head[i + 1] == "["; i++) {
        attribute = ""
        for (i += 2; i < words && head[i] != "]"; i++) attribute = attribute head[i]
        if (attribute ~ /^(unsafe[(]no_mangle[)]|no_mangle)$/) exported = no_mangle = 1
        else if (attribute ~ /^(unsafe[(])?export_name=/) exported = 1
        else if (attribute ~ own_derives) derives = derives attribute
        else if (attribute !~ /^tactic[(]/) unread("the attribute `" attribute "`")
    }
    if (head[i] == "pub") visible = "pub"
    if (head[i] == "pub" && head[++i] == "(") {
        visible = "crate"
        if (head[i + 1] != "crate" || head[i + 2] != ")") unread("`pub(" head[i + 1] "`")
        i += 3
    }
    if (head[i] == "const" && head[i + 1] == "fn") i++
    if (head[i] == "extern" && head[i + 1] == "\"C\"" && head[i + 2] == "fn") { exported = as_c = 1; i += 2 }
    public = exported || visible == "pub"
    if (public && !program && derives ~ untold_derives) unread("`" derives "` of a public type in a library")
    for_linkers = visible == "pub" && no_mangle && as_c
    kind = head[i]
    name = head[i + 1]
    after_name = i + 2
    if (kind ~ /^(struct|enum|use|mod)$/ || is_constant()) for (; i <= words; i++) if (head[i] == "fn") kind = "fn in another place"
}

# `const NAME: ..`, or the crate's own `static NAME: ..`
function is_constant() { return (kind == "const" || kind == "static" && !public) && head[after_name] == ":" }

function head_opens() {
    parse_head()
    clause_at = clause_opens()
    if (kind == "fn" && clause_at) begin_antt("}", 1)
    else if (kind == "fn") {
        judge_signature()
        head_read()
        open_block("function")
    } else if (kind == "use" || is_constant()) nested++
    else if (kind == "ghost" && trait && words == 4 && head[3] == "=") begin_antt("}", 1)
    else if (kind == "struct" || kind == "enum") {
        declare()
        item_read()
        open_block("fields")
    } else if (kind == "impl" && type == "") open_impl()
    else {
        unread("`" head_text(12) "`")
        open_block("something unread")
    }
}

# An `impl` of one type's name; in a program also of a trait for one. In a library a trait's functions would be public ones that no table names.
function open_impl(    of) {
    of = trait_for()
    if (words != 3 && (of == "" || !program)) {
        if (of == "") unread("`" head_text(12) "`")
        else fault(at ": `" head_text(12) "` in a library: its functions would be public ones that no table names")
        open_block("something unread")
        return
    }
    trait = of != ""
    type = trait ? of : name
    item_read()
    words = 0
}

# the type's name in `impl Trait for Type {`, where each of the two may be given something between `<` and `>`; "" where the head says anything else
function trait_for(    text) {
    text = head_text(words)
    if (text !~ trait_impl) return ""
    sub(/^.* for /, "", text)
    sub(/ .*$/, "", text)
    return text
}

function head_ends() {
    parse_head()
    if (kind == "struct") declare()
    else if (kind == "use" && visible == "pub" && (head[words - 2] != ":" || head[words - 1] !~ /^[A-Z]/)) unread("`" head_text(12) "`, which may bring a function out,")
    else if (!(kind == "use" || kind == "mod" && head[after_name] == ";" || is_constant() ||
            trait && (kind == "type" && head[after_name] == "=" || kind == "ghost" && head[4] == "{" && words == 5))) unread("`" head_text(12) "`")
    if (kind !~ /^(mod|ghost)$/) item_read()
    words = 0
}

function head_text(most,    i, text) {
    for (i = 1; i <= words && i <= most; i++) text = text (i > 1 ? " " : "") head[i]
    return text
}

function declare(    i) {
    if ((crate "::" name) in type_home) fault(at ": " crate " has two types " name)
    type_home[crate "::" name] = module
    type_visible[crate "::" name] = visible
    for (i = after_name; i < words; i++) type_parts[crate "::" name] = type_parts[crate "::" name] head[i] " "
}

# a name, what is generic between `<` and `>`, the parameters, and at most a type behind an arrow: a word that stands behind another word there is no type
function judge_signature(    i, deep) {
    i = head[after_name] == "<" ? behind_angles(after_name) : after_name
    if (name !~ /^[a-z_]/ || head[i] != "(") unread("`" head_text(12) "`")
    for (; i < words; i++) {
        deep += (head[i] == "(") - (head[i] == ")")
        if (!deep) break
    }
    if (i + 1 < words && !(head[i + 1] == "-" && head[i + 2] == ">")) unread("`" head[i + 1] "` after the parameters")
    for (i += 4; i < words; i++) if (head[i] ~ /^[A-Za-z_]/ && head[i - 1] ~ /^[A-Za-z_]/ && head[i - 1] != "mut") unread("`" head[i] "` after the result's type")
    for (i = after_name - 1; i < words; i++) signature = signature head[i] " "
}

# the place behind the `>` of the `<` that stands at i; that of an arrow closes nothing
function behind_angles(i,    deep) {
    for (; i < words; i++) {
        deep += (head[i] == "<") - (head[i] == ">" && head[i - 1] != "-")
        if (!deep) return i + 1
    }
    return i
}
