# A row for each public function of the Rattle files given, and on standard error what is wrong with one; fails where something is.
# Run by .ci/contracts. Sources are taken as `rt fmt` leaves them. What is not understood is wrong, never passed over.

BEGIN {
    public = "(^|[^a-z_])(pub ([a-z]+ |\"C\" )*|extern \"C\" )fn "
    clause = " (requires|ensures|ghost)[*]?( [^ (){}]+)? *$"
    lends = "&('[a-z_]+ )?mut "
    # the words that lemmas are said in, and the modules that they have to be of; `×` is built in, and nothing may bring another
    home["OneResult"] = "Rattle.laws.proofs.Determined"
    home["◌≡◌"] = "mathlib.Core.Path"
    home["◌×◌"] = "no module"
    # how laws defines the one that is its own; it is struck off where it is found
    defined["OneResult"] = "OneResult {K} {A} {R} {E} post = (k : K) (a : A k) (x y : R k) (e f : E k)" \
        " → post k a x e → post k a y f → x ≡ y"
}

FNR == 1 {
    leave()
    split(FILENAME, folder, "/")
    if (folder[2] != crate) {
        crate = folder[2]
        lemmas = "crates/" crate "/proofs/Determined.antt"
        read_lemmas()
    }
    # a file is a module, unless it is the root
    module = FILENAME
    sub(/^crates\/[^\/]*\/src\//, "", module)
    sub(/((^|\/)(lib|main|mod))?\.rt$/, "/", module)
    sub(/^\//, "", module)
    gsub(/\//, "::", module)
    owner = type = ""
}

{
    line = $0
    # within a clause `//` begins no comment
    if (depth == 0) sub(/\/\/.*/, "", line)
}

# What stands in an `impl` or a `mod` has its name before its own.
line ~ /^(impl|(pub )?mod)[ <].*\{/ {
    owner = line
    sub(/^(impl(<[^>]*>)?|(pub )?mod) */, "", owner)
    sub(/[^A-Za-z0-9_].*/, "::", owner)
}
line ~ /^\}/ { owner = "" }

# What a method of a trait promises stands at the trait, and no lemma here speaks of it.
!inside && line ~ /^ *((pub(\([^)]*\))? )?(unsafe )?trait |(unsafe )?impl[ <].* for )/ { wrong(FILENAME, "a trait is not understood here") }

# A type with a `&mut` in it would hide that from a signature.
!inside && line ~ /^ *(pub(\([^)]*\))? )?(struct|enum|type) / {
    type = line
    sub(/^ *(pub(\([^)]*\))? )?[a-z]+ /, "", type)
    sub(/[^A-Za-z0-9_].*/, "", type)
}
type != "" && line ~ lends { wrong(crate "::" module type, "it holds a `&mut`: what lemmas have to say of one is not known here") }
line ~ /[;}] *$/ { type = "" }

match(line, public) {
    line = substr(line, RSTART + RLENGTH)
    leave()
    own = line
    sub(/[^A-Za-z0-9_].*/, "", own)
    name = crate "::" module owner own
    head = signature = ""
    clauses = 0
    inside = 1
}
inside { read_head(line) }

END {
    leave()
    for (word in defined) wrong("laws::" word, "its definition is not `" defined[word] "`")
    exit bad
}

function wrong(what, why) {
    print what ": " why >"/dev/stderr"
    bad = 1
}

# A head cannot go on where the next function begins or the file has ended.
function leave() {
    if (inside) wrong(name, "where its body begins is not understood")
    inside = depth = 0
}

# The first brace that opens no clause opens the body. Leaves the `signature`, and of each clause its words in `heads` and its term in `terms`.
function read_head(text,  brace, words) {
    if (depth == 0 && text ~ /\/\*/) wrong(name, "a comment in its head is not understood")
    while (match(text, /[{}]/)) {
        brace = substr(text, RSTART, 1)
        head = head substr(text, 1, RSTART - 1)
        text = substr(text, RSTART + 1)
        if (depth == 0) {
            words = ""
            if (brace == "{" && match(head, clause)) {
                words = plain(substr(head, RSTART))
                head = substr(head, 1, RSTART - 1)
            }
            if (clauses == 0) signature = plain(head)
            if (brace == "}" || clauses && plain(head) != "") wrong(name, "its clauses are not understood")
            head = ""
            if (words == "") {
                inside = 0
                row()
                return
            }
            heads[++clauses] = words
            depth = 1
        } else {
            depth += brace == "{" ? 1 : -1
            if (depth > 0) head = head brace
            else {
                terms[clauses] = plain(head)
                head = ""
            }
        }
    }
    head = head text " "
}

function plain(text) {
    gsub(/ +/, " ", text)
    gsub(/^ | $/, "", text)
    return text
}

# A function that is lent a closure has to ask that it may be called.
function row(  said, by) {
    closure = gsub(/: Fn\([^()]*\) -> /, ": Fn ", signature)
    said = equations()
    by = lemma(due())
    printf "| `%s` | %s | %s |\n", name, said == "" ? "NONE" : "`" said "`", by
}

# What the contract says: the terms of its `ensures`, each behind its name where it has one.
function equations(  said, label, i) {
    said = ""
    for (i = 1; i <= clauses; i++) {
        if (heads[i] == "requires" && closure && terms[i] ~ /^\(i : _\) → i < [a-z]+ → F\.pre f i$/) said = said (said == "" ? "" : "; ") terms[i]
        else if (heads[i] ~ /^requires/) wrong(name, "it has a `requires`")
        else if (heads[i] ~ /^ghost/) wrong(name, "it has a `ghost` clause")
        else if (heads[i] !~ /^ensures( [a-z_]+)?$/) wrong(name, "it has an `ensures` that is not of the form `ensures { .. }` or `ensures name { .. }`")
        else {
            label = heads[i]
            sub(/^ensures */, "", label)
            said = said (said == "" ? "" : "; ") (label == "" ? "" : label ": ") terms[i]
        }
    }
    if (said == "") wrong(name, "it has no `ensures`")
    return said
}

# What is to be concluded of two results x and y, and of e and f, the parameters as each call leaves them: that the same is returned, and
# the same left behind each `&mut`. Of a reference that is returned it is what it refers to, since no contract speaks of its address; a
# struct that holds one, as a reader, is said whole.
function due(  returned, passed, said, path, n, i) {
    gsub(/<[^<>]*>/, "", signature)
    if (signature ~ / (requires|ensures|ghost)/ || signature !~ /^[A-Za-z0-9_]+\([^()]*\)( -> [^()]+)?$/) {
        wrong(name, "its signature is not understood: `" signature "`")
        return ""
    }
    returned = passed = signature
    sub(/^.*\)( -> )?/, "", returned)
    sub(/^.*\(/, "", passed)
    sub(/\).*/, "", passed)
    if (returned ~ "^" lends) wrong(name, "it returns a `&mut`: what its lemma has to say is not known here")
    said = path = ""
    if (returned != "") said = returned ~ /^&/ ? "x.now ≡ y.now" : "x ≡ y"
    n = split(passed, parameter, ",")
    for (i = 1; i <= n; i++) {
        if (parameter[i] ~ lends) said = also(said, "e" path ".0.now ≡ f" path ".0.now")
        path = path ".1"
    }
    # it would hold only where there is something to pass
    if (said == "" && passed != "") wrong(name, "it returns and changes nothing, so it is a promise, and a promise takes no parameter")
    return said
}

function also(said, more) {
    if (said == "") return more
    return (said ~ /^\(/ ? said : "(" said ")") " × (" more ")"
}

# The lemma that the row names, once it is seen that it concludes what is wanted of this function's own contract.
function lemma(wanted,  called, said, concludes) {
    if (wanted == "") return "nothing is returned"
    called = own "-determined"
    if (!(called in says)) {
        wrong(name, "there is no lemma `" called "` in " lemmas)
        return "NONE"
    }
    said = says[called]
    if (own_contract(said)) {
        concludes = conclusion(said)
        if (concludes == "") wrong(name, "its lemma is of no shape that is known here: `" said "`")
        else if (concludes != wanted) wrong(name, "its lemma concludes `" concludes "`, and not `" wanted "`")
    }
    return "`" called "`"
}

# Whether a lemma speaks of this function's contract and of no other. Leaves the name that it has there in `alias`.
function own_contract(said,  word, path, due_there) {
    path = module owner own
    gsub(/::/, ".", path)
    due_there = "Rattle." crate ".proofs." path ".Reads"
    alias = ""
    while (match(said, /[^ ()]+\.Post/)) {
        alias = word = substr(said, RSTART, RLENGTH)
        said = substr(said, RSTART + RLENGTH)
        sub(/\.[A-Za-z]+$/, "", alias)
        if (bound[alias] != due_there) {
            if (bound[alias] == "") bound[alias] = "bound to nothing"
            wrong(name, "its lemma speaks of `" word "`, and `" alias "` is " bound[alias] ", not " due_there)
            return 0
        }
    }
    if (alias == "") wrong(name, "its lemma speaks of no contract")
    return alias != ""
}

# What a lemma of a known shape, over the contract `alias`, concludes; "" of any other. A generic function has a contract for each type.
function conclusion(said,  given, over) {
    if (said == "OneResult " alias ".Post") return "x ≡ y"
    if (match(said, /^(\([a-z] : _\) )+→ OneResult \(/)) {
        given = substr(said, 1, RLENGTH)
        over = given
        sub(/ → OneResult \($/, "", over)
        gsub(/ : _\)/, "", over)
        gsub(/\(/, "", over)
        return said == given alias ".Post " over ")" ? "x ≡ y" : ""
    }
    # two results of one that is lent a closure are equal wherever the closure's own contract allows one value for each number
    if (closure && match(said, /^(\([a-z ]+ : _\) )+\(κs : _\) \(a : _\) \(x y : _\) \(e k : _\) → /)) {
        given = substr(said, 1, RLENGTH)
        over = given
        sub(/ \(κs : _\).*/, "", over)
        gsub(/ : _\)/, "", over)
        gsub(/\(/, "", over)
        given = given alias ".Post " over " κs a x e → " alias ".Post " over " κs a y k → "
        return said == given "(g : ℕ → _) → ((i : ℕ) (r : _) → i < a.1.0 → f.post a.0 (i, tt) r → r ≡ g i) → x ≡ y" ? "x ≡ y" : ""
    }
    given = "(κs : _) (a : _) (x y : _) (e f : _) → " alias ".Post κs a x e → " alias ".Post κs a y f → "
    return begins(said, given) ? substr(said, length(given) + 1) : ""
}

function begins(text, front) {
    return substr(text, 1, length(front)) == front
}

# The crate's lemmas: in `says` the statement of each that is proved there, in `bound` the module that an alias stands for.
function read_lemmas(  line, word, open, said, at) {
    split("", says)
    split("", bound)
    open = ""
    while ((getline line <lemmas) > 0) {
        if (line ~ /\{-/) wrong(lemmas, "a comment in braces is not understood here")
        sub(/(^| )--( .*)?$/, "", line)
        if (crate == "laws") for (word in defined) if (line == defined[word]) delete defined[word]
        read_names(line)
        if (line ~ /^pub [^ ]+-determined :/) {
            at = index(line, " :")
            open = substr(line, 1, at - 1)
            sub(/^pub /, "", open)
            said = ""
            line = substr(line, at + 2)
        }
        if (open == "") continue
        sub(/^ +/, "", line)
        if (begins(line, open " ")) {
            says[open] = plain(said)
            open = ""
        } else said = said " " line
    }
    close(lemmas)
}

# The names that a line brings: a module's, some out of a module, or the one that it declares.
function read_names(line,  word, from, n, i) {
    if (line ~ /^use [^ {}*]+( as [^ ]+)?$/) {
        n = split(line, word, " ")
        from = word[2]
        sub(/^.*\./, "", word[n])
        if (word[n] in bound) from = bound[word[n]] " and " from
        bound[word[n]] = from
    } else if (line ~ /^use [^ {}*]+\.\{[^{}]+\}$/) {
        from = line
        sub(/^use /, "", from)
        sub(/\.\{.*/, "", from)
        sub(/^.*\.\{/, "", line)
        sub(/\}$/, "", line)
        n = split(line, word, ", *")
        for (i = 1; i <= n; i++) bring(word[i], from)
    } else if (line ~ /^ *(pub )?(use|open|package|module|syntax|axiom|mutual) /) {
        wrong(lemmas, "`" line "` is not understood here")
    } else if (line ~ /^ +:/) {
        wrong(lemmas, "a `:` that begins a line is not understood here")
    } else if (line ~ / :/) {
        sub(/ :.*/, "", line)
        sub(/^.* /, "", line)
        bring(line, "Rattle." crate ".proofs.Determined")
    }
}

# `a as b` brings b, and `M.a` brings a.
function bring(word, from) {
    if (sub(/^.* as /, "", word)) from = "another word"
    from = from "." word
    sub(/\.[^.]*$/, "", from)
    sub(/^.*\./, "", word)
    if (word in home && home[word] != from) wrong(lemmas, "`" word "` is of " from ", and not of " home[word])
}
