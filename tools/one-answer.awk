# The judgements of tools/one-answer, over what tools/code.awk and tools/declarations.awk read.
BEGIN {
    demand = "crates/promises/proofs/Demand1Callers.antt"
    at_home(one_answer, "Rattle.one_answer.specs.Fixes")
    at_home(wrong_engine, "Rattle.one_answer.specs.Engines")
    at_home("Answers|AnswersLent", "Rattle.promises.specs.Contract")
    read_crates()
}

# the crates that are proved, and which of them are static libraries
function read_crates(    line, word) {
    while ((getline line < "crates.txt") > 0) {
        sub(/#.*$/, "", line)
        sub(/:.*$/, "", line)
        if (!split(line, word, " ")) continue
        proved[word[1]] = 1
        if (word[2] ~ /^(staticlib|wasm64)$/) static[word[1]] = 1
    }
}

function at_home(words, file,    n, i, word) {
    n = split(words, word, "|")
    for (i = 1; i <= n; i++) home[word[i]] = file
}

function fault(text) { if (!said[text]++) print "one-answer: " text; faults++ }
function bare(cell) { gsub(/[ `]/, "", cell); return cell }
function last(path) { sub(/^.*::/, "", path); return path }

FILENAME ~ /[.]rt$/ { read_code() }
FILENAME ~ /[.]antt$/ { read_declarations() }

# ---- the page

# the rows: | `crate::function`, `crate::module::function` or `crate::Type::method` | `theorem` | wrong answers |
FILENAME ~ /[.]md$/ && /^\| `[a-z0-9_]+::[A-Za-z0-9_:]+` \|/ {
    split($0, cell, "|")
    if (bare(cell[2]) in theorem_of) fault(bare(cell[2]) " has two rows in docs/ONE-ANSWER.md")
    theorem_of[bare(cell[2])] = bare(cell[3])
    wrong_of[bare(cell[2])] = bare(cell[4])
}

# whatever else the page names: edits as `crate/edit`, and theorems of wrong engines
FILENAME ~ /[.]md$/ {
    n = split($0, quoted, "`")
    for (i = 2; i <= n; i += 2) if (quoted[i] ~ /^[a-z0-9_]+\/[a-z0-9_]+$|^[a-z0-9_]+_not_[a-z_]+$/ && quoted[i] !~ /^crates\//) named[quoted[i]] = 1
}

# ---- the functions

# what a file brings to its clauses, line for line
function import_read(text) {
    gsub(/[ \t]+/, " ", text)
    brought[crate, module] = brought[crate, module] text "; "
}

function item_read() {
    if (crate in static) fault(at ": `" kind "` in a static library is not read here")
    if (kind == "use") renames_read()
    else if (public && !program && derives ~ /[(,]PartialEq[,)]/) equality_read()
}

# the `==` that a public type of a library derives: a public function, whose contract is the language's and whose code is nobody's
function equality_read() {
    f = crate "::" name "::eq"
    if (f in crate_of) fault(f " stands twice: their names have to differ")
    crate_of[f] = crate
    type_of[f] = name
    name_of[f] = "eq"
    derived[f] = 1
}

# a type under another name counts as one that holds it
function renames_read(    i, other) {
    for (i = 1; i < words; i++) if (head[i] == "as") {
        other = crate "::" head[i + 1]
        type_parts[other] = type_parts[other] head[i - 1] " "
    }
}

function head_read(    place) {
    if (crate in static) { export_read(); return }
    if (!public) return
    place = type != "" ? type : module
    f = crate "::" (place == "" ? "" : place "::") name
    if (f in crate_of) fault(f " stands twice: their names have to differ")
    crate_of[f] = crate
    module_of[f] = module
    type_of[f] = type
    name_of[f] = name
    if (exported) for_c[f] = 1
    signature_of[f] = signature
    stated_of[f] = stated
    if (asks) fault(at ": " f " asks its caller for something: a public function has no `requires` and no `ghost`")
    if (!ensures) fault(at ": " f " has no `ensures`")
}

function body_read() {
    if (crate in static) exported_code[e] = code
    else if (public) code_of[f] = code
}

# ---- ghost fields: whoever is handed a value of a type with one, or of a type that holds such a type, is owed what the field says

function ghost_read(text) { if (kind == "struct") asking[crate "::" name] = 1 }

# does a text of the code name a type of its crate that has or holds a ghost field?
function names_asking(owner, text,    n, i, word) {
    n = split(text, word, " ")
    for (i = 1; i <= n; i++) if ((owner "::" word[i]) in asking) return 1
    return 0
}

function judge_types(    t, more, owner) {
    do {
        more = 0
        for (t in type_parts) {
            owner = t
            sub(/::.*$/, "", owner)
            if (!(t in asking) && names_asking(owner, type_parts[t])) more = asking[t] = 1
        }
    } while (more)
    for (t in asking) if (type_visible[t] == "pub") fault(t " asks callers for something: a public type has no ghost field, and holds none")
}

# ---- the exports

# a function of a static library NAME_c: what it says is judged at the end, when the library NAME has been read
function export_read() {
    e = crate "::" (module == "" ? "" : module "::") name
    if (!for_linkers) fault(at ": " e " is not exported as a function for C: a static library has no other")
    if (e in exports) fault(e " stands twice: their names have to differ")
    exports[e] = at
    exported_head[e] = signature
    exported_clauses[e] = stated
    exported_module[e] = module
    exported_from[e] = crate
}

# the library that a static library is of; "" where it is of none
function library_of(static_crate) {
    return sub(/_c$/, "", static_crate) && (static_crate in proved) && !(static_crate in static) ? static_crate : ""
}

# the names of the parameters of a signature, with a comma between each two
function parameters_of(signature,    n, i, token, depth, names) {
    n = split(signature, token, " ")
    for (i = 2; i <= n; i++) {
        depth += (token[i] ~ /^[[(<]$/) - (token[i] ~ /^[])]$/ || token[i] == ">" && token[i - 1] != "-")
        if (!depth) break
        if (depth == 1 && token[i] == ":") names = names (names == "" ? "" : ", ") token[i - 1]
    }
    gsub(/,/, " ,", names)
    return names
}

# an export has the name, the types and the clauses of a function of the library that is marked for C, and calls it with what it was given
function judge_export(e,    library, path, f, given, names) {
    library = library_of(exported_from[e])
    if (library == "") { fault(exported_from[e] " is a static library, and of no library of crates.txt: its name would be that library's with _c behind it"); return }
    path = substr(e, length(exported_from[e]) + 3)
    f = library "::" path
    if (!(f in for_c)) { fault(exports[e] ": " e " is exported, and " f " is no function that is marked for C"); return }
    if (exported_head[e] != signature_of[f]) fault(exports[e] ": " e " takes or gives something else than " f)
    if (exported_clauses[e] != stated_of[f]) fault(exports[e] ": the clauses of " e " are not, word for word, those of " f)
    if (brought[exported_from[e], exported_module[e]] != brought[library, exported_module[e]]) fault(exports[e] ": the `ghost use` lines of the file are not those of the file of " f)
    given = path
    gsub(/::/, " : : ", given)
    names = parameters_of(signature_of[f])
    if (exported_code[e] != " " library " : : " given " ( " names (names == "" ? "" : " ") ") ") fault(exports[e] ": " e " does something else than to hand over to " f)
}

# the path of a function's contract below the proofs of its crate: a method stands where its type is declared, and one that is derived under the type's name and the trait's
function path_of(f,    place) {
    place = module_of[f]
    if (type_of[f] != "") {
        if (!((crate_of[f] "::" type_of[f]) in type_home)) fault(f " is a method of a type that is not declared in its crate")
        place = type_home[crate_of[f] "::" type_of[f]]
        place = (place == "" ? "" : place ".") type_of[f] (f in derived ? "PartialEq" : "")
    }
    return (place == "" ? "" : place ".") name_of[f]
}

# nothing may be written by hand where the check makes the contract
function judge_generated(f,    path, proofs, specs) {
    path = path_of(f)
    gsub(/[.]/, "/", path)
    proofs = "crates/" crate_of[f] "/proofs/"
    specs = "crates/" crate_of[f] "/specs/contracts"
    if (stands(proofs path "/Reads.antt") || stands(proofs path "/Kinds.antt")) fault(proofs path " has a file with the name of a generated part")
    if (stands(specs ".antt")) fault(specs ".antt has the name of a generated module")
    for (; path != ""; sub(/\/?[^\/]*$/, "", path)) {
        if (stands(proofs path ".antt")) fault(proofs path ".antt has the name of a generated module")
        if (stands(specs "/" path ".antt")) fault(specs "/" path ".antt has the name of a generated module")
        if (stands(specs "/" path "/TheImpl.antt")) fault(specs "/" path "/TheImpl.antt has the name of a generated module")
    }
}

# ---- the theorems

# a name that a file brings or defines, in each of its spellings
function note(table, name,    n, i, spelling) {
    n = spellings(name, spelling)
    for (i = 1; i <= n; i++) {
        table[declared_in, spelling[i]]++
        if (spelling[i] == "Rattle") fault(declared_at ": " name " has the name of a library")
    }
}

function names_any(text, wanted,    n, i, word) {
    gsub(/[.]/, " ", text)
    n = words_of(text, word)
    for (i = 1; i <= n; i++) if (word[i] ~ wanted) return 1
    return 0
}

function declaration_read(text,    form) {
    if (declared_in ~ /\/specs\//) { if (text ~ /^use /) read_promised(text); return }
    if (declared_in ~ /\/Lib[.]antt$/) { read_module_line(text); return }
    form = form_of(text)
    if (unproved != "" && form != "unfolding") judge_proof(form)
    if (form == "") strange[declared_in] = declared_at
    if (form == "use") read_use(text)
    else if (parse_statement(text)) read_statement(text)
    else if (form == "signature") note(defines, declared_name)
}

# the contracts by which the demands are told: each is brought by a `use` of its own
function read_promised(text) {
    if (!parse_use(text) || item[1] != "" || used_path !~ /^Rattle[.][a-z0-9_]+[.](proofs[.].*[.]Reads|specs[.]contracts[.].*)$/) return
    sub(/^Rattle[.]/, "", used_path)
    sub(/[.](proofs|specs[.]contracts)[.]/, ".", used_path)
    sub(/[.]Reads$/, "", used_path)
    promised[used_path] = 1
}

# proofs/Lib.antt of a crate names the files that the check looks at
function read_module_line(text,    file) {
    if (text !~ /^(pub )?mod [A-Z][A-Za-z0-9]*$/) { fault(declared_at ": `" text "` is no `mod`"); return }
    file = declared_in
    sub(/Lib[.]antt$/, "", file)
    sub(/^.*mod /, "", text)
    looked_at[file text ".antt"] = 1
}

function read_use(text,    i) {
    if (!parse_use(text)) strange[declared_in] = declared_at
    for (i = 1; i <= items; i++) {
        note(brings, known[i])
        meant[declared_in, known[i]] = used_path (item[i] == "" ? "" : ".{" item[i] "}")
    }
}

function read_statement(text) {
    note(defines, theorem)
    if (declared_in == demand) {
        if (!names_any(text, "^Answers(Lent)?$")) return
        demands[theorem] = statement
    } else if (names_any(text, "^(" one_answer ")$")) {
        about[theorem] = contract_in(statement)
        if (marks ~ /abbrev/ || about[theorem] == "") fault(declared_at ": the statement of " theorem " is not exactly that of one contract")
    } else if (names_any(text, "^(" wrong_engine ")$")) {
        refutes[theorem] = refuted_in(statement)
        if (marks ~ /abbrev/ || refutes[theorem] == "") fault(declared_at ": the statement of " theorem " is not exactly that of a wrong engine")
    } else return
    if (theorem in stated_in) fault(declared_at ": " theorem " is stated twice")
    stated_in[theorem] = declared_in
    word_of[theorem] = statement
    sub(/ .*$/, "", word_of[theorem])
    unproved = theorem
}

function judge_proof(form) {
    if (form != "clause" || declared_name != unproved) fault(stated_in[unproved] ": " unproved " has no proof below its statement")
    unproved = ""
}

# The contract that a statement is about, if it is that contract's and nothing else. It has two names, which `contract_at` judges: its signature and its
# clauses as assertions stand below the specs of the crate, and its clauses as facts below its proofs. "" where it is no such statement.
function contract_in(statement,    E, C, clauses) {
    E = signature_in(statement)
    if (statement == "FixesLent " E ".ended " lent_clauses(E)) return E
    C = statement
    sub(/[.]Reads[.]Post$/, "", C)
    sub(/^.* /, "", C)
    clauses = C ".Reads.Pre " C ".Reads.Post"
    return statement == "Fixes " E ".ended " clauses || statement == "FixesTyped " E ".ended (" C ".Kinds.r).is.Ok " clauses ? E " " C : ""
}

# the name before the first `.ended`
function signature_in(statement) {
    sub(/^[^ ]+ /, "", statement)
    sub(/[.]ended .*$/, "", statement)
    return statement
}

function lent_clauses(E) { return "(λ M 𝓤 𝓛. " E ".clauses 𝓛)" }

# the theorem of one answer that a statement of a wrong engine names; what follows stands in parentheses
function refuted_in(statement,    rest, names) {
    if (statement !~ "^(" wrong_engine ") [^ ()]+ ") return ""
    rest = statement
    sub(/^[^ ]+ /, "", rest)
    names = rest
    sub(/ .*$/, "", names)
    sub(/[.]fixes$/, "", names)
    sub(/^[^ ]+ /, "", rest)
    while (gsub(/[(][^()]*[)]/, "", rest)) continue
    return rest ~ /^ *$/ ? names : ""
}

# in a file a word means what its one `use` line says, and nothing else there has its name
function judge_word(file, word, meaning) {
    if (brings[file, word] != 1 || ((file, word) in defines) || meant[file, word] != meaning) fault(file ": " word " has to be " meaning ", brought once and not defined anew")
}

# a contract as a file names it, once or twice, by the crate and the path of its function
function contract_at(file, names,    n, name, of) {
    n = split(names, name, " ")
    of = part_at(file, name[1], "specs.contracts")
    if (n > 1 && part_at(file, name[2], "proofs") != of) { fault(file ": " name[1] " and " name[2] " are not of one contract"); return "no contract" }
    return of
}

# the crate and the path of a name that begins with an alias of what a crate has there
function part_at(file, C, where,    alias, owner, of) {
    alias = C
    sub(/[.].*$/, "", alias)
    owner = of = meant[file, alias]
    sub(/^Rattle[.]/, "", of)
    sub(/[.].*$/, "", of)
    if (of !~ /^[a-z0-9_]+$/ || owner != "Rattle." of "." where) { fault(file ": " alias " is not brought as the " where " of a crate"); return "no contract" }
    judge_word(file, alias, owner)
    return of substr(C, length(alias) + 1)
}

function judge_statement(theorem,    file, of) {
    file = stated_in[theorem]
    if (!(file in looked_at)) fault(file " holds " theorem ", and no `mod` line of its Lib.antt names it")
    if (file in strange) fault(strange[file] ": not read in a file that holds such a theorem as " theorem)
    if (theorem in demands) judge_demand(file, demands[theorem])
    else if (word_of[theorem] in home) judge_word(file, word_of[theorem], home[word_of[theorem]] ".{" word_of[theorem] "}")
    of = theorem in refutes ? refutes[theorem] : ""
    if (of == "") return
    if (!(of in about)) fault(file ": " theorem " names " of ", which is no theorem of one answer")
    else if (stated_in[of] != file) judge_word(file, of, "Rattle.one_answer.proofs." module_name(stated_in[of]) ".{" of "}")
}

function module_name(file) {
    sub(/^.*\//, "", file)
    sub(/[.]antt$/, "", file)
    return file
}

# the statement that nothing is asked: one conjunct for each function, and nothing else
function judge_demand(file, statement,    n, i, part, E, C) {
    if (brings[file, "×"] || ((file, "×") in defines)) fault(file ": × has to be the language's own")
    n = split(statement, part, " × ")
    for (i = 1; i <= n; i++) {
        if (part[i] ~ /^[(].*[)]$/) part[i] = substr(part[i], 2, length(part[i]) - 2)
        E = signature_in(part[i])
        C = part[i]
        sub(/[.]Reads[.]Pre$/, "", C)
        sub(/^.* /, "", C)
        if (part[i] == "Answers " E ".ended " C ".Reads.Pre") judge_word(file, "Answers", home["Answers"] ".{Answers}")
        else if (part[i] == "AnswersLent " E ".ended " lent_clauses(E)) { judge_word(file, "AnswersLent", home["Answers"] ".{AnswersLent}"); C = "" }
        else { fault(file ": `" part[i] "` is not exactly what one contract asks"); continue }
        C = contract_at(file, E " " C)
        if (C in answered) fault(file ": " C " is named twice")
        answered[C] = 1
    }
}

# ---- the wrong answers

# is there an edit among the wrong answers of a function, or of those that it hands over to, at most `deep` calls below?
function has_edit(f, deep,    n, i, wrong) {
    n = split(wrong_of[f], wrong, ",")
    for (i = 1; i <= n; i++) {
        if (wrong[i] ~ /::/ ? deep > 0 && has_edit(wrong[i], deep - 1) : !(wrong[i] in refutes)) return 1
    }
    return 0
}

function judge_wrong(f, wrong,    file) {
    if (wrong ~ /::/) {
        if (!(wrong in crate_of)) fault(f ": there is no public function " wrong)
        else if (!index(code_of[f], " " last(wrong) " ( ")) fault(f " does not call " wrong)
    } else if (wrong in refutes) {
        if (word_of[wrong] ~ "^(" of_no_answer ")$") fault(f ": the theorem " wrong " says nothing of an answer")
        if (refutes[wrong] != "" && refutes[wrong] != theorem_of[f]) fault(f ": the theorem " wrong " is about the contract of " refutes[wrong])
    } else {
        file = wrong ~ /\// ? wrong : crate_of[f] "/" wrong
        sub(/\//, "/must-fail/", file)
        if (!stands("crates/" file ".edit")) fault(f ": there is no theorem " wrong ", and no crates/" file ".edit")
    }
}

function judge_row(f,    n, i, wrong) {
    n = split(wrong_of[f], wrong, ",")
    if (n < 2) fault(f " has fewer than two wrong answers in docs/ONE-ANSWER.md")
    for (i = 1; i <= n; i++) {
        judge_wrong(f, wrong[i])
        if (told[f, wrong[i]]++) fault(f " has the wrong answer " wrong[i] " twice")
    }
    if (!(f in derived) && !has_edit(f, 9)) fault(f " has no wrong edit in docs/ONE-ANSWER.md")
}

function judge_function(f,    theorem, contract, told_of) {
    contract = crate_of[f] "." path_of(f)
    of_a_function[contract] = 1
    judge_generated(f)
    if (names_asking(crate_of[f], type_of[f] " " signature_of[f])) fault(f " asks its caller for something: it takes or gives a type that has or holds a ghost field")
    if (demand_stands && !(contract in answered)) fault(f " is not named in " demand)
    if ((f in for_c) && !(contract in promised)) fault(f " is exported to C, and no file of crates/promises/specs brings its contract")
    if ((f in for_c) && !((crate_of[f] "_c" substr(f, length(crate_of[f]) + 1)) in exports)) fault(f " is marked for C, and no static library exports it")
    if (!(f in theorem_of)) { fault(f " is not in docs/ONE-ANSWER.md"); return }
    theorem = theorem_of[f]
    if (!(theorem in about)) fault(f ": crates/one_answer/proofs has no theorem " theorem)
    else if (about[theorem] != "") {
        told_of = contract_at(stated_in[theorem], about[theorem])
        if (told_of != contract) fault(f ": the theorem " theorem " is about " told_of)
    }
    judge_row(f)
}

# the crates that hold the theorems are among those that are proved
function judge_crates() {
    if (!("one_answer" in proved) || !("promises" in proved)) fault("crates.txt does not name both one_answer and promises")
}

END {
    end_code()
    end_declarations()
    if (unproved != "") judge_proof("")
    judge_crates()
    judge_types()
    demand_stands = stands(demand)
    if (!demand_stands) fault(demand ", which says that nothing is asked, is not there")
    for (t in stated_in) judge_statement(t)
    for (f in theorem_of) if (!(f in crate_of)) fault(f " is in docs/ONE-ANSWER.md, and is no public function")
    for (f in crate_of) judge_function(f)
    for (e in exports) judge_export(e)
    for (C in answered) if (!(C in of_a_function)) fault(demand ": " C " is the contract of no public function")
    for (one in named) {
        file = one
        sub(/\//, "/must-fail/", file)
        if (one ~ /\// ? !stands("crates/" file ".edit") : !(one in refutes)) fault(one " is in docs/ONE-ANSWER.md, and is not there")
    }
    exit (faults > 0)
}
