# The judgements of tools/believed, over what tools/code.awk and tools/declarations.awk read. Files of specs/ are read here, by lines. What a file says is judged where it
# ends, so that it does not matter in which order it brings, defines and tells.
function fault(text) { if (!said[text]++) print "believed: " text; faults++ }

function begin_file(    part) {
    end_file()
    split(FILENAME, part, "/")
    folder = part[3] == "src" ? "src" : part[3] == "specs" ? "specs" : "promise"
    crate = part[2]
    file = FILENAME
    sub(/^crates\/[^\/]*\/[^\/]*\//, "", file)
    sub(/[.](rt|antt)$/, "", file)
    gsub("/", ".", file)
    here = crate "/" file
    now = ""
    names = statements = section = 0
    split("", imported)
    split("", inner)
    split("", modules)
    split("", paths)
    split("", begins)
    split("", strange)
    split("", occurs)
    split("", heads)
}

function end_file(    i, first) {
    end_declarations()
    for (first in begins) if (first in modules) fault(begins[first] " begins at a name that another `use` brings")
    if (folder == "promise" && (statements || crate == "promises")) for (i in strange) fault(strange[i] " is not read in a file that holds a promise")
    for (i = 1; i <= statements; i++) {
        judge_open(told[i], told_at[i])
        judge_binders(told[i], told_at[i])
        judge_paths(told[i], told_at[i])
        if (folder == "src") judge_code(told[i], told_at[i])
        body["public"] = body["public"] keys(told[i])
    }
    if (folder == "specs") for (i = 1; i <= names; i++) if (!used(name_of[i], is_module[i])) fault(name_at[i] ": " name_of[i] " is brought and not used")
}

# ---- what a file brings

# Is it of a file of proofs/, and not a module that the check makes of the code? A path there is generated exactly when no file along it is written by hand.
function by_hand(path,    owner, below, n, i, step) {
    sub(/^(package[.])?Rattle[.]/, "", path)
    if (path !~ /^[^.]+[.]proofs([.]|$)/) return 0
    owner = path
    sub(/[.].*$/, "", owner)
    below = path
    sub(/^[^.]+[.]proofs[.]?/, "", below)
    n = split(below, step, ".")
    below = "crates/" owner "/proofs"
    for (i = 1; i <= n; i++) {
        below = below "/" step[i]
        if (stands(below ".antt")) return 1
    }
    return n == 0
}

function note(table, name, meaning,    n, i, spelling) {
    n = spellings(name, spelling)
    for (i = 1; i <= n; i++) table[spelling[i]] = table[spelling[i]] " " meaning
}

# the names that a `use` brings, each with what it means in this file: CRATE/FILE/NAME of specs/, or a path of proofs/
function bring(text, place,    i, first, owner, specs) {
    if (!parse_use(text)) { fault(place ": `" text "` is not read here"); return }
    first = used_path
    sub(/[.].*$/, "", first)
    begins[first] = place ": `" text "`"
    owner = specs = used_path
    sub(/^(package[.])?Rattle[.]/, "", owner)
    sub(/[.].*$/, "", owner)
    sub(/^.*[.]specs[.]/, "", specs)
    if (item[1] != "" && used_path ~ /^(package[.])?Rattle([.][^.]+)?([.](specs|proofs))?$/) fault(place ": `" text "` brings modules in braces")
    for (i = 1; i <= items; i++) {
        name_of[++names] = known[i]
        name_at[names] = place
        is_module[names] = item[i] == ""
        if (folder == "specs" && by_hand(full[i])) fault(FILENAME " imports " full[i])
        if (folder == "promise" && item[i] != "" && item[i] != known[i]) strange[place] = place ": " item[i] " as " known[i]
        note(modules, known[i], full[i])
        if (item[i] == "") { note(paths, known[i], full[i]); continue }
        if (by_hand(full[i])) note(inner, known[i], full[i])
        else if (used_path ~ /^(package[.])?Rattle[.][^.]+[.]specs[.]/ && used_path !~ /[.]specs[.](declared|contracts)[.]/) note(imported, known[i], owner "/" specs "/" item[i])
    }
}

# does the file use the name that it brings? A module is used at the head of a path, an operator by its parts.
function used(name, module,    n, i, spelling) {
    if (module) return name in heads
    n = spellings(name, spelling)
    for (i = n > 1 ? 2 : 1; i <= n; i++) if (!(spelling[i] in occurs)) return 0
    return 1
}

# ---- words

# the words of a text, each as the definitions that it may mean
function keys(text,    n, i, j, m, word, spelling, out) {
    gsub(/[.]/, " ", text)
    n = words_of(text, word)
    for (i = 1; i <= n; i++) {
        m = spellings(word[i], spelling)
        for (j = 1; j <= m; j++) out = out " " (spelling[j] in imported ? imported[spelling[j]] : here "/" spelling[j])
    }
    return out
}

# no path in a text may lead to a file of proofs/; each step of it is looked at, since `λ x.y` may be a binder with what follows
function judge_paths(text, place,    n, i, m, j, word, step, below) {
    n = words_of(text, word)
    for (i = 1; i <= n; i++) {
        below = word[i]
        m = split(word[i], step, ".")
        for (j = 1; j <= m; j++) {
            below = substr(below, length(step[j]) + 1)
            if (step[j] ~ /^(package|Rattle)$/) fault(place ": " word[i] " is a whole path: bring it by `use`")
            judge_step(step[j], below, place)
            sub(/^[.]/, "", below)
        }
    }
}

function judge_step(step, below, place,    n, i, m, j, spelling, meaning) {
    n = spellings(step, spelling)
    for (i = 1; i <= n; i++) {
        if (spelling[i] in inner) {
            m = split(inner[spelling[i]], meaning, " ")
            for (j = 1; j <= m; j++) suspect[place ": a public statement is told by " spelling[i] ", which is " meaning[j]] = meaning[j]
        }
        if (below != "" && spelling[i] in paths) {
            m = split(paths[spelling[i]], meaning, " ")
            for (j = 1; j <= m; j++) if (by_hand(meaning[j] below)) fault(place ": " step below " is of a file of proofs/")
        }
    }
}

# nothing in a public statement may be left to be found, or be defined there
function judge_open(text, place,    n, i, word) {
    n = words_of(text, word)
    for (i = 1; i <= n; i++) if (word[i] ~ /^(_|let|where|do|elim|unfold)$|⟦|⟧/) fault(place ": `" word[i] "` in a public statement is not read here")
}

# A clause may name a constant of the code with no `use`. What it says would then be told by the code. It is known at the end which names are such.
function judge_code(text, place,    n, i, word) {
    gsub(/[.]/, " ", text)
    n = words_of(text, word)
    for (i = 1; i <= n; i++) of_code[place ": a public contract is told by the constant " word[i]] = word[i]
}

# A name that a file brings means the same in all its public statements: none binds it, as `(x y : A)` and `λ x y (z : A).` bind x, y and z, and `λ (x, y).` does.
function judge_binders(text, place,    rest) {
    for (rest = text; match(rest, /[({][^(){}:]+ : /); rest = substr(rest, RSTART + RLENGTH)) judge_bound(substr(rest, RSTART, RLENGTH), place)
    for (rest = text; match(rest, /λ[ ({]/);) {
        rest = substr(rest, RSTART + length("λ"))
        judge_bound(before_dot(rest), place)
    }
}

function judge_bound(bound, place,    n, i, word) {
    sub(/ : $/, "", bound)
    n = words_of(bound, word)
    for (i = 1; i <= n; i++) if (word[i] in modules) fault(place ": a public statement binds " word[i] ", which its file brings")
}

# what stands before the dot that ends the binders of a λ, without the types
function before_dot(text,    i, letter, depth, typed, bound) {
    for (i = 1; i <= length(text); i++) {
        letter = substr(text, i, 1)
        depth += (letter ~ /[({]/) - (letter ~ /[)}]/)
        if (letter == "." && !depth) break
        if (typed > depth) typed = 0
        if (!typed && substr(text, i, 3) == " : ") typed = depth
        if (!typed) bound = bound letter
    }
    return bound
}

function tell(text, place) {
    told[++statements] = text
    told_at[statements] = place
}

# ---- the code: clauses of public functions, and in a program those of its own
function import_read(text) { bring(text, FILENAME ":" FNR) }
function head_read() { if (public || program && (visible == "crate" || trait)) tell(clauses, at) }
function ghost_read(text) { if (kind == "ghost" || visible == "pub" || program && visible == "crate") tell(text, at) }
function body_read() {}
function item_read() { if (kind ~ /^(const|static)$/) constant[name] = 1 }

function beginning(text,    n, i, word, out) {
    n = split(text, word, " ")
    for (i = 1; i <= n && i <= 5; i++) out = out (i > 1 ? " " : "") word[i]
    return out
}

# ---- the promises: statements of public theorems, which may not be told by what their own file defines
function declaration_read(text,    form, path) {
    form = form_of(text)
    if (form == "use") bring(text, declared_at)
    if (form == "") strange[declared_at] = declared_at ": `" beginning(text) "`"
    if (form == "signature") note(inner, declared_name, path = "Rattle." crate ".proofs." file "." declared_name)
    if (form == "use" || !parse_statement(text)) return
    if (crate == "one_answer" && statement !~ "^(" one_answer "|" wrong_engine ") ") return
    if (crate == "one_answer" && statement ~ "^(" one_answer ") " && theorem ~ /_fixes$/) of_one_answer[path] = 1
    sub(/^(unfoldable )?(abbrev )?pub [^ ]+ /, "", text)
    tell(text, declared_at)
}

# ---- specs/

function read_specs(    line, place) {
    place = FILENAME ":" FNR
    judge_characters()
    line = without_comment($0)
    gsub(/ +$/, "", line)
    if (line == "") return
    if (FILENAME ~ /\/Lib[.]antt$/) { if (line !~ /^pub mod [A-Za-z]+$/) fault(place " is no `pub mod`"); return }
    if (line ~ /^use /) { bring(line, place); return }
    if (line ~ /\t/) fault(place ": a tab is not read here")
    if (line ~ /^[^ ]/) section = line ~ /^(module _ |(abbrev |unfoldable )?mutual$)/
    if (section && line ~ /^[^ ]/) {
        now = ""
        told_by_section = ""
        in_header = line ~ /^module/
    } else if (line ~ /^[^ ]/ || section && line ~ /^  [^ ]/) read_head(substr(line, section ? 3 : 1), place)
    else if (now == "" && !(section && in_header)) fault(place ": a line that belongs to nothing")
    if (line ~ / where$/) in_header = 0
    judge_paths(line, place)
    note_words(line)
    if (is_no_text(line)) return
    if (now == "") told_by_section = told_by_section keys(line)
    else body[now] = body[now] keys(line)
}

# a fixity, and what a definition computes with, tell nothing
function is_no_text(line) { return line ~ /^ *(unfolding |infix[lr]? [0-9]+ )/ }

# the head of a definition, at the margin or two blanks in where a section or a block of definitions that tell each other is open; or a clause, which is of the definition above it
function read_head(text, place,    own, name, n, i, spelling) {
    if (is_no_text(text) || text ~ /^[})]+$/) return
    own = text
    sub(/^(unfoldable )?(abbrev )?(pub )?(data |record )?/, "", own)
    name = own
    sub(/[ :({].*$/, "", name)
    if (name == "" || name ~ no_name || !((here "/" name) in defined) && own !~ /^[^ ]+ (.* )?:( |$)/) { fault(place ": `" text "` is not read here"); return }
    now = here "/" name
    if (now in defined) return
    order[++count] = now
    defined[now] = FILENAME ": " name
    body[now] = section ? told_by_section : ""
    n = spellings(name, spelling)
    for (i = 2; i <= n; i++) body[here "/" spelling[i]] = body[here "/" spelling[i]] " " now
}

function note_words(text,    n, i, m, j, k, word, step, spelling, count) {
    n = words_of(text, word)
    for (i = 1; i <= n; i++) {
        m = split(word[i], step, ".")
        if (m > 1 && step[2] != "") heads[step[1]] = 1
        for (j = 1; j <= m; j++) {
            count = spellings(step[j], spelling)
            for (k = 1; k <= count; k++) occurs[spelling[k]] = 1
        }
    }
}

FNR == 1 { begin_file() }
folder == "src" { read_code() }
folder == "promise" { read_declarations() }
folder == "specs" { read_specs() }

# ---- the rule

# what is told, by what is told by it
function reach(    i, j, n, word, size, queue, reached) {
    queue[size = 1] = "public"
    for (i = 1; i <= size; i++) {
        n = split(body[queue[i]], word, " ")
        for (j = 1; j <= n; j++) if ((word[j] in body) && !(word[j] in reached)) { reached[word[j]] = 1; queue[++size] = word[j] }
    }
    for (i = 1; i <= count; i++) {
        if (!(order[i] in reached)) fault(defined[order[i]] " is told by no public contract and no promise: it belongs in proofs/")
        else if (list) print defined[order[i]]
    }
}

END {
    end_code()
    end_file()
    for (text in suspect) if (!(suspect[text] in of_one_answer)) fault(text)
    for (text in of_code) if (of_code[text] in constant) fault(text)
    reach()
    exit (faults > 0)
}
