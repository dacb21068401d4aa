# Reads the libraries whose src/lib.rt are named, from the folder that holds crates/. tools/public-functions says what for.
# It knows the items of a source that `read_item` names, the lines of a Determined.antt that `take_line` names, and those of a Generic.antt that
# `take_generic` names. It reads every file of a library whole, and refuses anything else with its place; so it does with an EachProtocol.antt, of which
# `read_statements` says the lines. In an Instance.antt it looks for the lines that `take_instance` and `ask_instance` name.

BEGIN {
    split("mathlib seplogic types prog contract denote mir", libraries, " ")
    known["use mathlib.Core.Path.{refl}"]
    known["use Rattle.std.proofs.Common.{refl}"]
    split("seplogic.Ra.Ura.{Ura}|types.Logic.{Logic}|prog.Model.{Model}|prog.Wired.{Wired}|contract.Running.{Running}|contract.BorrowLft.{◌⊑◌}|contract.Lifetimes.{lft_at}|" \
        "denote.Param.{bounded}|denote.Param.Laws.{Laws, IsCopy}|denote.RattleType.{RattleType}|mir.Syntax.{Dict, a_type, dcons, dnil}", kit, "|")
    for (i in kit) of_kit["use " kit[i]]
    total = short = 0
    # First for the traits alone: an impl may stand in a crate that comes before its trait's.
    for (is_first = 1; is_first >= 0; is_first--) {
        if (table && !is_first) print "| call | contract | theorem |\n|---|---|---|"
        for (i = 1; i < ARGC; i++) read_crate(ARGV[i])
    }
    is_first = 0
    for (i = 1; i < ARGC; i++) read_instance(ARGV[i])
    for (i = 1; i < ARGC; i++) read_each(ARGV[i])
    ask_each()
    if (!table || short) print total " public functions, " short " fall short"
    exit (short > 0 || total == 0)
}

function fall(where, what) {
    if (is_first) return
    print where ": " what
    short++
}

function read_crate(lib,   part, i) {
    split(lib, part, "/")
    crate = part[2]
    split("", theorem)
    split("", theorem_at_every_type)
    is_generic_list = 1
    list = "crates/" crate "/proofs/Generic.antt"
    read_theorems()
    is_generic_list = 0
    list = "crates/" crate "/proofs/Determined.antt"
    read_theorems()
    modules = 0
    add_module(lib, "crates/" crate "/src", "", 1)
    for (i = 1; i <= modules; i++) read_source(i)
}

# ---- the theorems of a crate: theorem[PATH] is the name of each function's, and theorem_at_every_type[PATH] that of a generic one. A function F of a PATH has
# three names there: F is its contract, F_symbol its code and its name, F_met that it meets the contract.

function read_theorems(   text, whole, at, number, i) {
    split("", path)
    split("", symbol)
    split("", met)
    split("", stated)
    split("", declared)
    split("", bound)
    trait_named = ""
    # a module of ours under a library's name would be read in place of the library
    for (i in libraries) path[libraries[i]] = ""
    whole = ""
    at = number = 0
    while ((getline text < list) > 0) {
        number++
        if (text ~ /^ *(-- .*)?$/) continue
        if (text ~ /--|[{]-|-[}]|"/) fall(list ":" number, "a comment in a line is not understood")
        if (sub(/^   +/, " ", text)) {
            whole = whole text
            continue
        }
        take_line(at, whole)
        whole = text
        at = number
    }
    take_line(at, whole)
    close(list)
}

function take_line(at, text,   alias) {
    if (text == "" || text in known) return
    if (is_generic_list) return take_generic(at, text)
    if (text ~ /^use Rattle[.]determined[.]specs[.]Determined[.][{]Fixed(, [^ \t,{}]+)+[}]$/) return
    if (names(text, "specs.contracts.", "", "", path) || names(text, "proofs.", ".Symbol", "_symbol", symbol) || names(text, "proofs.", ".Met", "_met", met)) return
    if (match(text, /^[a-z0-9_]+_fixed /)) {
        alias = substr(text, 1, RLENGTH - 7)
        if (is_one(alias) && text == statement(alias)) {
            stated[alias]
            return
        }
        if (alias in stated && index(text, alias "_fixed M 𝓤 𝓛 𝓜 𝓡 = ") == 1) {
            theorem[path[alias]] = alias "_fixed"
            return
        }
    }
    fall(list ":" at, "this is not understood: " text)
}

# Of generic functions: the statement is at every type with every impl of its bounds. The bounds' modules stand under the names that the statements use.
function take_generic(at, text,   alias, said) {
    if (text ~ /^use Rattle[.]determined[.]specs[.]Determined[.][{]FixedWhere(, [^ \t,{}]+)+[}]$/) return
    if (text in of_kit || text ~ /^use Rattle[.]std[.]specs[.]Prelude[.][{](refl, )?\[\], ◌∷◌[}]$/) return
    if (text == "use Rattle.std.specs.declared.clone.Clone as clone" || text == "use Rattle.std.specs.contracts.clone.Clone.TheBound as clone_bound") return
    if (names_trait(text, "declared", "", "", declared) || names_trait(text, "contracts", ".TheBound", "_bound", bound)) return
    if (names(text, "specs.contracts.", "", "", path) || names(text, "proofs.", ".Symbol", "_symbol", symbol) || names(text, "proofs.", ".Met", "_met", met)) return
    if (text ~ /^module _ [{]M : Type 1[}] [(]𝓤 : Ura M[)] [(]𝓛 : Logic 𝓤[)] [(]𝓜 : Model 𝓤 𝓛[.]H[)] [(]𝓡 : Running 𝓤 𝓛[.]H 𝓜[)] [(]T : RattleType[)] [(]laws : Laws T[)] [(]copy : IsCopy T[)] [(]P : [a-z]+[.]Ghosts T[.]Denot[)] [(]d : Dict[)] [(]C : clone[.]Ghosts T[.]Denot[)] [(]e : Dict[)] where$/) {
        trait_named = text
        sub(/.*[(]P : /, "", trait_named)
        sub(/[.].*/, "", trait_named)
        return
    }
    if (text ~ /^  abbrev Bounds : Type 2$/) return
    if (is_trait_named(trait_named) && text == "  Bounds = " trait_named "_bound.Met 𝓛 𝓜 𝓡 𝓡.env T P d C e × clone_bound.Met 𝓛 𝓜 𝓡 𝓡.env T C e") return
    said = text
    sub(/^  (pub )?/, "", said)
    if (match(said, /^[a-z0-9_]+_fixed /)) {
        alias = substr(said, 1, RLENGTH - 7)
        if (is_one(alias) && is_generic_statement(alias, said)) {
            stated[alias]
            generic_path[crate, alias] = path[alias]
            generic_trait[crate] = bare(declared[trait_named])
            is_generic_trait[generic_trait[crate]]
            return
        }
        if (alias in stated && said ~ ("^" alias "_fixed (N f )?= ")) {
            theorem_at_every_type[path[alias]] = alias "_fixed"
            return
        }
    }
    fall(list ":" at, "this is not understood: " text)
}

# Whether an import names a trait: its module of a kind goes to of[NAME].
function names_trait(text, kind, after, ending, of,   part) {
    if (text !~ ("^use Rattle[.][a-z_]+[.]specs[.]" kind "[.]([a-z_]+[.])?[A-Z][A-Za-z]+" (after == "" ? "" : "[.]TheBound") " as [a-z]+" ending "$")) return 0
    split(text, part, " as ")
    if (!cut(part, 1, after) || ending != "" && !cut(part, 2, ending) || part[2] in path || part[2] in of) return 0
    sub("^use Rattle[.]", "", part[1])
    sub("[.]specs[.]" kind "[.]", ".", part[1])
    of[part[2]] = part[1]
    return 1
}

# Whether the two names of a trait are of one.
function is_trait_named(name) {
    return name in declared && name in bound && declared[name] == bound[name]
}

# The bounds of one more trait are N and f.
function is_generic_statement(f, said,   i, one, more, name, other) {
    other = said
    if (other ~ /[(]N : /) {
        sub(/.*[(]N : /, "", other)
        sub(/[.].*/, "", other)
        if (!is_trait_named(other) || index(said, " × " other "_bound.Met ") == 0) return 0
    }
    split("T P d C e|T P d C e N f", one, "|")
    split("|(N : [a-z]+[.]Ghosts T[.]Denot) (f : Dict) → ", more, "|")
    for (i = 1; i <= 2; i++) {
        name = f "_fixed : " (i == 1 ? "" : "[(]N : [a-z]+[.]Ghosts T[.]Denot[)] [(]f : Dict[)] → ") \
            "FixedWhere 𝓛 [(]" f "[.]ended " one[i] "[)] [(]" f "[.]clauses " one[i] " 𝓛 𝓜[.]mem 𝓡[.]returns[)] [(]Wired 𝓡[.]env " f "_symbol[.]code × Bounds" \
            (i == 1 ? "" : " × [a-z]+_bound[.]Met 𝓛 𝓜 𝓡 𝓡[.]env T N f P d C e") "[)] [(]λ κs[.] lft_at [0-9]+ [0-9]+ tt κs ⊑ T[.]lives[)] " \
            "[(]𝓡[.]run [(]𝓡[.]env [(]" f "_symbol[.]name [(]bounded [(]a_type ∷ \\[\\][)] [(]T, tt[)] [(]dcons d [(]dcons e " (i == 1 ? "dnil[)]" : "[(]dcons f dnil[)][)]") "[)][)][)][)][)]"
        if (said !~ ("^" name "$")) continue
        needs_number[crate, f] = i == 2
        if (i == 2) is_number_trait[bare(declared[other])]
        return 1
    }
    return 0
}

# A trait's name without its modules.
function bare(name) {
    sub(/.*[.]/, "", name)
    return name
}

# Whether an import names a module of a function of this crate, with a name that no other has: that goes to of[F].
function names(text, before, after, ending, of,   own, part, f) {
    own = "use Rattle." crate "." before
    if (index(text, own) != 1 || split(substr(text, length(own) + 1), part, " as ") != 2) return 0
    if (!cut(part, 1, after) || part[1] !~ /^[A-Za-z0-9_.]+$/ || part[2] !~ /^[a-z0-9_]+$/ || part[2] in path) return 0
    f = part[2]
    if (!cut(part, 2, ending)) return 0
    if (ending != "") path[f] = ""
    of[part[2]] = part[1]
    return 1
}

# Cuts an ending off, where it is there.
function cut(part, i, ending,   at) {
    at = length(part[i]) - length(ending)
    if (at < 1 || substr(part[i], at + 1) != ending) return 0
    part[i] = substr(part[i], 1, at)
    return 1
}

# Whether the three names of a function are of one path.
function is_one(f) {
    return f in path && path[f] != "" && f in symbol && symbol[f] == path[f] && f in met && met[f] == path[f]
}

function statement(f) {
    return f "_fixed : Fixed " f ".ended (λ M 𝓤 𝓛. " f ".clauses 𝓛) " f "_symbol.code " f "_symbol.name"
}

# ---- the modules of a crate

function add_module(source, folder, prefix, is_open) {
    modules++
    source_of[modules] = source
    folder_of[modules] = folder
    prefix_of[modules] = prefix
    open_of[modules] = is_open
}

function read_source(i,   w) {
    trait = of_trait = ""
    at_every_type = 0
    file = source_of[i]
    folder = folder_of[i]
    prefix = prefix_of[i]
    is_open = open_of[i]
    rest = ""
    line = lost = 0
    while ((w = word()) != "") read_item(w, "")
    close(file)
}

function exists(name,   text, found) {
    found = (getline text < name) >= 0
    close(name)
    return found
}

function read_mod(is_public,   name, below) {
    name = word()
    below = folder "/" name
    if (!follows(";")) return
    if (!exists(below ".rt") || exists(below "/mod.rt")) refuse("the module " name " has no file, or two")
    else add_module(below ".rt", below, prefix name ".", is_open && is_public)
}

# ---- the items of a source

function read_item(w, type,   is_public) {
    if (w == "#" && rest ~ /^!/) {
        if (follows("! [ tactic (")) pass_over()
        follows("]")
        return
    }
    exported = 0
    while (w == "#") w = pass_attribute()
    is_public = w == "pub"
    if (is_public) w = word()
    # what is public in its crate alone is ours
    if (is_public && w == "(") {
        if (!follows("crate )")) return
        is_public = 0
        w = word()
    }
    if (exported && !(w == "extern" && is_public)) return refuse(w)
    if (w == "extern" && is_public) w = follows("\"C\" fn") ? "fn" : ""
    if (w == "fn") read_function(is_public, type)
    else if (w == "ghost" && type != "" && !is_public) pass_ghost_member()
    else if (w ~ /^(const|type)$/ && type != "" && (trait != "" || of_trait != "")) pass_declaration(w, 0)
    else if (type != "") refuse(w)
    else if (w == "use" && is_public) refuse("a re-export")
    else if (w ~ /^(use|const|type|struct|enum)$/) pass_declaration(w, is_public)
    else if (w == "mod") read_mod(is_public)
    else if (w == "trait") read_trait(is_public)
    else if (w == "impl" && !is_public) read_impl()
    else if (w == "ghost" && !is_public) pass_ghost_use()
    else refuse(w)
}

# An attribute that asks for tactics or to be put in line, derives or exports; the word after it.
function pass_attribute(   w) {
    if (!follows("[")) return ""
    w = word()
    if (w == "unsafe") {
        exported = 1
        return follows("( no_mangle ) ]") ? word() : ""
    }
    if (w ~ /^(inline|cold)$/ && rest ~ /^\]/) return follows("]") ? word() : ""
    if (w !~ /^(tactic|derive|inline)$/) return refuse(w)
    if (!follows("(")) return ""
    if (w == "derive") pass_derives()
    else pass_over()
    return follows("]") ? word() : ""
}

# A derive gives a type public functions, whose contracts are the kit's. So each derive that may be taken is named here.
function pass_derives(   w) {
    while ((w = word()) != ")" && !lost) if (w !~ /^(Clone|Copy|Debug|PartialEq|Eq|,)$/) refuse(w)
}

# Parameters between < and >, the first of which is read; whether one of them is a type.
function pass_parameters(   w, depth, is_type, last) {
    for (depth = 1; depth > 0 && !lost;) {
        w = word()
        if (w == "" || is_item(w)) return refuse(w)
        if (w == "<") depth++
        else if (w == ">") depth--
        else if (depth == 1 && w ~ /^[A-Z]/ && last != ":" && last != "+") is_type = 1
        last = w
    }
    return is_type
}

# Of a type, `impl Type`, of one that holds a reference or a type, `impl<'a> Type<'a>`, `impl<M: Protocol> Decoder<M>`, or of a trait for a type.
function read_impl(   w, type) {
    at_every_type = 0
    of_trait = ""
    type = word()
    if (type == "<") {
        at_every_type = pass_parameters()
        type = word()
    }
    if (type !~ /^[A-Z][A-Za-z0-9]*$/) return refuse(type)
    w = word()
    if (w == "<") {
        pass_parameters()
        w = word()
    }
    if (w == "for") {
        of_trait = type
        type = word()
        if (type !~ /^[A-Z][A-Za-z0-9]*$/) return refuse(type)
        # a trait that is not public stands in its crate alone
        if (!is_first && !(of_trait in is_public_trait) && !((crate "." of_trait) in is_own_trait)) return refuse(of_trait)
        # neither a parameter nor another name of a type; one of another crate may have a trait of this crate alone
        if (!is_first && of_trait in is_public_trait && !((crate "." type) in is_type)) return refuse(type)
        is_of_public = (crate "." type) in is_public_type
        if (is_of_public) has_impl[of_trait]
        if (is_of_public && !is_first) ask_instance(of_trait, type)
        if (of_trait in is_public_trait && !is_of_public) is_hidden[crate "." type]
        type = type of_trait
        w = word()
    }
    if (w != "{") return refuse(w)
    while ((w = word()) != "}" && !lost) read_item(w, type ".")
    at_every_type = 0
    of_trait = ""
}

# A public type with its impl of a trait over which functions are generic: proofs/Instance.antt names the two as one memory, for which `ask_each` asks. And a
# protocol's machine is the definition's, and its number document 01's.
function ask_instance(of, type,   said, wanted, count, i, line_of, own, name) {
    said = "crates/" crate "/proofs/Instance.antt"
    own = "use Rattle." crate ".specs.contracts." prefix type of ".TheImpl as "
    count = 0
    if (of == "Protocol") wanted[++count] = "pub machine_of_impl : impl.ghosts.machine ≡ machine"
    if (of == "Numbered") wanted[++count] = "pub number_of_impl : number.ghosts.NUMBER ≡ "
    if (of in is_generic_trait) {
        wanted[++count] = own "impl"
        wanted[++count] = "ghosts = impl.ghosts;"
        wanted[++count] = "dict = impl.dict;"
        name = "abbrev pub NAME : Impl"
    }
    if (of in is_number_trait) {
        wanted[++count] = own "number"
        name = "abbrev pub NAME_number : Number NAME"
    }
    while ((getline line_of < said) > 0) {
        sub(/^ +/, "", line_of)
        for (i = 1; i <= count; i++) if (index(line_of, wanted[i]) == 1) wanted[i] = ""
        if (of in is_generic_trait && line_of ~ /^abbrev pub [a-z0-9_]+ : Impl$/) {
            sub(/^abbrev pub /, "", line_of)
            sub(/ .*/, "", line_of)
            memory_trait[crate, line_of] = of
            name = ""
        }
        if (of in is_number_trait && line_of ~ /^abbrev pub [a-z0-9_]+_number : Number [a-z0-9_]+$/) {
            sub(/.* /, "", line_of)
            is_numbered[crate, line_of]
            name = ""
        }
    }
    close(said)
    if (name != "") wanted[++count] = name
    for (i = 1; i <= count; i++) if (wanted[i] != "") fall(file ":" line, type " lacks in " said " the line: " wanted[i])
}

# ---- what the theorems of generic functions come to for a memory. Over any impl the proofs/Instance.antt of their crate states `Fixed` of each: of one that needs
# the memory's number as `NewFixed`, of the others as fields of a record. A proofs/EachProtocol.antt, or the memory's own Instance.antt, then states each of
# these of each memory.

function read_instance(lib,   part, text, at, f) {
    split(lib, part, "/")
    crate = part[2]
    if (!(crate in generic_trait) || !(generic_trait[crate] in has_impl)) return
    list = "crates/" crate "/proofs/Instance.antt"
    split("", path)
    split("", symbol)
    split("", said)
    holder = stated_of = joined = ""
    to_join = at = 0
    while ((getline text < list) > 0) {
        at++
        sub(/^ +/, "", text)
        if (text !~ /^(-- .*)?$/) take_instance(list ":" at, text)
    }
    close(list)
    for (f in generic_path) {
        split(f, part, SUBSEP)
        if (part[1] == crate && !(part[2] in said)) fall(list, "this is missing: " part[2] "_fixed : Fixed (" part[2] ".ended ..")
    }
    for (f in is_statement) {
        split(f, part, SUBSEP)
        if (part[1] == crate && !(f in is_proved)) fall(list, "the proof is missing of " part[2])
    }
}

function take_instance(at, text,   f, part) {
    if (text ~ /--|[{]-|-[}]|"/) return fall(at, "a comment in a line is not understood")
    if (stated_of != "") {
        if (index(text, proof_begins) == 1) is_proved[crate, stated_of]
        stated_of = ""
        return
    }
    if (to_join > 0) {
        joined = joined " " text
        if (--to_join > 0) return
        f = joined
        sub(/^ NewFixed N = Fixed [(]/, "", f)
        sub(/[.].*/, "", f)
        if (!is_of_crate(f) || !needs_number[crate, f] || joined != numbered_statement(f, "") && joined != numbered_statement(f, "I ")) return fall(at, "this is not understood:" joined)
        said[f]
        is_statement[crate, "NewFixed"]
        return
    }
    if (text ~ /^use /) {
        if (text == "use Rattle.determined.specs.Determined.{Fixed}" || names(text, "specs.contracts.", "", "", path) || names(text, "proofs.", ".Symbol", "_symbol", symbol)) return
        if (is_strange_import(text, path) || text ~ /[{ ]Fixed[},]/) fall(at, "this is not understood: " text)
        return
    }
    if (text ~ /^pub record [A-Za-z]+ : Type 2 where$/) {
        split(text, part, " ")
        holder = part[3]
        return
    }
    if (match(text, /^pub [a-z0-9_]+_fixed : Fixed /)) {
        f = substr(text, 5, RLENGTH - 19)
        if (holder == "" || !is_of_crate(f) || needs_number[crate, f] || text != instance_statement(f, "") && text != instance_statement(f, "I ")) return fall(at, "this is not understood: " text)
        said[f]
        is_statement[crate, holder]
        return
    }
    holder = ""
    if (text == "abbrev pub NewFixed : Number I → Type 2") {
        to_join = 4
        joined = ""
    } else if (text ~ /^pub [a-z0-9_]+ : [A-Za-z]+$/ && split(text, part, " ") && (crate, part[4]) in is_statement) {
        stated_of = part[4]
        proof_begins = part[2] " = record {"
    } else if (text ~ /^pub [a-z0-9_]+ : [(]N : Number I[)] → NewFixed N$/) {
        split(text, part, " ")
        stated_of = "NewFixed"
        proof_begins = part[2] " N "
    } else if (text ~ /(^| )Fixed /) fall(at, "this is not understood: " text)
}

# Whether the names of a function in an Instance.antt are those of one that its crate's Generic.antt speaks of.
function is_of_crate(f) {
    return (crate, f) in generic_path && f in path && f in symbol && path[f] == symbol[f] && path[f] == generic_path[crate, f]
}

function instance_statement(f, i) {
    return "pub " f "_fixed : Fixed (" f ".ended row ghosts dict c e) (λ M 𝓤 𝓛. " f ".clauses row ghosts dict c e 𝓛) (with_methods " i f "_symbol.code) (named " i f "_symbol.name dnil)"
}

function numbered_statement(f, i) {
    return " NewFixed N = Fixed (" f ".ended row ghosts dict c e N.ghosts N.dict) (λ M 𝓤 𝓛. " f ".clauses row ghosts dict c e N.ghosts N.dict 𝓛)" \
        " (node [] [] (and N.method (and (with_methods " i f "_symbol.code) end))) (named " i f "_symbol.name (dcons N.dict dnil))"
}

# Whether an import gives another name to a part of a module, or a name that is taken.
function is_strange_import(text, taken,   name) {
    if (text ~ /[{].* as /) return 1
    name = text
    return sub(/.* as /, "", name) && (name in taken || name ~ /^[A-Z]/)
}

function read_each(lib,   part) {
    split(lib, part, "/")
    crate = part[2]
    read_statements("crates/" crate "/proofs/Instance.antt", 0)
    read_statements("crates/" crate "/proofs/EachProtocol.antt", 1)
}

# home[NAME] is the crate whose Instance.antt a name is of.
function read_statements(name, is_whole,   text, at, part, count, i, begins, of) {
    list = name
    split("", home)
    at = 0
    while ((getline text < list) > 0) {
        at++
        if (text ~ /^ *(-- .*)?$/) continue
        if (begins != "") {
            if (index(text, begins) == 1) is_told[of]
            else fall(list ":" at, "a proof is missing above: " text)
            begins = ""
        } else if (text ~ /^use Rattle[.][a-z0-9_]+[.]proofs[.]Instance[.][{][A-Za-z0-9_]+(, [A-Za-z0-9_]+)*[}]$/) {
            count = split(text, part, "[.{}, ]+")
            for (i = 6; i < count; i++) {
                if (part[i] in home) fall(list ":" at, "this is not understood: " text)
                home[part[i]] = part[3]
            }
        } else if (text ~ /^use / && is_strange_import(text, home)) fall(list ":" at, "this is not understood: " text)
        else if (!is_whole && text ~ /^abbrev pub [a-z0-9_]+ : (Impl|Number [a-z0-9_]+)$/) {
            split(text, part, " ")
            home[part[3]] = crate
        } else if (text ~ /^pub [a-z0-9_]+ : [A-Za-z]+( [a-z0-9_]+)+$/ && is_instance(text)) {
            split(text, part, " ")
            begins = part[2] " = "
            of = home[part[4]] SUBSEP part[4] SUBSEP home[part[5]] SUBSEP part[5]
        } else if (is_whole) fall(list ":" at, "this is not understood: " text)
    }
    close(list)
}

# Whether a line states a record of a memory, or `NewFixed` of one and its number.
function is_instance(text,   part, count, i) {
    count = split(text, part, " ")
    for (i = 4; i <= count; i++) if (!(part[i] in home)) return 0
    if (!((home[part[4]], part[4]) in is_statement)) return 0
    return part[4] == "NewFixed" ? count == 6 && part[6] == part[5] "_number" && home[part[6]] == home[part[5]] : count == 5
}

function ask_each(   f, m, of, memory) {
    for (f in is_statement) for (m in memory_trait) {
        split(f, of, SUBSEP)
        split(m, memory, SUBSEP)
        if (memory_trait[m] != generic_trait[of[1]] || of[2] == "NewFixed" && !(m in is_numbered) || (f, m) in is_told) continue
        fall("crates/" of[1] "/proofs/Instance.antt", "no EachProtocol.antt, nor the memory's own Instance.antt, says " of[2] " of " memory[2])
    }
}

# A trait of ours: each method has its contract there, and each impl of a public type is held to a theorem.
function read_trait(is_public,   w) {
    trait = word()
    if (trait !~ /^[A-Z][A-Za-z0-9]*$/) return refuse(trait)
    is_trait[trait]
    is_own_trait[crate "." trait]
    if (is_public) is_public_trait[trait]
    while ((w = word()) != "{" && !lost) {
        if (w !~ /^[:+A-Za-z0-9_]+$/ || is_item(w)) return refuse(w)
        # whoever has the public trait has the methods of those that it stands on
        if (!is_first && is_public && w in is_trait && !(w in is_public_trait)) return refuse(w)
    }
    while ((w = word()) != "}" && !lost) read_item(w, trait ".")
    trait = ""
}

function read_function(is_public, type,   name, at, w, clauses, is_every) {
    name = word()
    at = line
    contract = ""
    is_every = at_every_type
    if (rest ~ /^</) {
        word()
        if (pass_parameters()) is_every = 1
    }
    while ((w = word()) != "{" && !(w == ";" && trait != "") && !lost) {
        if (w ~ /^(ensures|requires|ghost)$/) {
            clauses = clauses " " w
            pass_clause()
        } else if (w ~ /^[[(]$/) pass_over()
        else if (!is_first && is_public && (crate "." w) in is_hidden) refuse(w)
        else if (w == "" || is_item(w) || w ~ /^(pub|const|type|struct|enum|[^-<>:,&'A-Za-z0-9_].*)$/) refuse("the header of " name " is not closed: " w)
    }
    if (trait != "") {
        if (w == "{") refuse("a method with a body in a trait")
        method_contract[trait, name] = contract
        if (!(trait in is_public_trait)) return
        if (!is_first) total++
        check_clauses(file ":" at, trait "." name, clauses)
        return
    }
    pass_over()
    if (lost) return
    if (of_trait != "") {
        if (is_first || !is_of_public || !(of_trait in is_public_trait)) return
        if (clauses != "" || !((of_trait, name) in method_contract)) return refuse(name)
        contract = method_contract[of_trait, name]
        return hold(at, prefix type name, " ensures", 0)
    }
    if (!is_public) return
    if (is_open) hold(at, prefix type name, clauses, is_every)
    else if (exported) fall(file ":" at, type name " is exported from a private module")
    else if (type != "") fall(file ":" at, type name " is a public method in a private module")
}

function check_clauses(at, name, clauses) {
    if (clauses ~ /requires/) fall(at, name " has a requires")
    else if (clauses ~ /ghost/) fall(at, name " has a ghost value")
    else if (clauses !~ /ensures/) fall(at, name " has no ensures")
    else return 1
    return 0
}

function hold(at, name, clauses, is_every) {
    if (!is_first) {
        total++
        if ((crate, name) in held) fall(file ":" at, name " is there twice")
        held[crate, name]
    }
    at = file ":" at
    if (!check_clauses(at, name, clauses)) return
    if (is_every) {
        if (!(name in theorem_at_every_type)) fall(at, name " is missing from crates/" crate "/proofs/Generic.antt")
        else if (table) print_row(name, theorem_at_every_type[name])
    } else if (!(name in theorem)) fall(at, name " is missing from " list)
    else if (table) print_row(name, theorem[name])
}

# The contract as the source states it, without the names of its clauses and the brackets about them.
function print_row(name, by) {
    if (is_first) return
    gsub(/ *; +/, "; ", contract)
    gsub(/^ +|; *$/, "", contract)
    print "| `" crate "::" dotless(name) "` | `" contract "` | `" by "` |"
}

function dotless(name) {
    gsub(/[.]/, "::", name)
    return name
}

function pass_declaration(kind, is_public,   w, name) {
    while ((w = word()) != ";" && !lost) {
        if (w == "" || is_item(w)) refuse(w)
        if (name == "") {
            name = w
            if (kind == "struct" || kind == "enum") is_type[crate "." name]
            if (is_public && (kind == "struct" || kind == "enum")) is_public_type[crate "." name]
        }
        # another name of a type whose calls are held to nothing
        if (!is_first && is_public && kind == "type" && (crate "." w) in is_hidden) refuse(w)
        if (w ~ /^[[({]$/) pass_over()
        if (w == "{" && (kind == "struct" || kind == "enum")) return
    }
}

# A ghost member of a trait or an impl: `ghost NAME: { .. };` or `ghost NAME = { .. };`.
function pass_ghost_member(   name, kept) {
    name = word()
    if (name !~ /^[A-Za-z_]+$/ || trait == "" && of_trait == "") return refuse(name)
    if (!follows(trait != "" ? ":" : "=")) return
    kept = contract
    pass_clause()
    contract = kept
    follows(";")
}

function pass_ghost_use() {
    if (!follows("use")) return
    if (rest !~ /^[^;"]*;$/ || rest ~ /--|\/\/|[{]-/) refuse(rest)
    rest = ""
}

# To the closing bracket of one that was just read.
function pass_over(   depth, w) {
    for (depth = 1; depth > 0 && !lost;) {
        w = word()
        if (w == "" || is_item(w)) refuse(w)
        if (w ~ /^[[({]$/) depth++
        if (w ~ /^[])}]$/) depth--
    }
}

# A clause's text is antt's. It may have a name before it.
function pass_clause(   depth, sign) {
    if (word() != "{") if (!follows("{")) return
    for (depth = 1; depth > 0 && !lost;) {
        while (!match(rest, /[{}"]|[{]-|--|\/\/|\/[*]|«|⟦/)) {
            contract = contract rest " "
            if (!next_line()) return refuse("")
            sub(/^ +/, "", rest)
        }
        sign = substr(rest, RSTART, RLENGTH)
        contract = contract substr(rest, 1, RSTART - 1) (depth > 1 || sign == "{" ? sign : "")
        rest = substr(rest, RSTART + RLENGTH)
        if (sign == "{") depth++
        else if (sign == "}") depth--
        else refuse(sign)
    }
    contract = contract "; "
}

# Words that begin an item, or a struct's ghost field: none stands within a header, a body or a declaration.
function is_item(w) {
    return w ~ /^(fn|impl|mod|use|ghost|extern|unsafe|macro_rules)$/
}

# ---- the words of a source

# The next word: a name, a number, a text, a lifetime, or one other character; "" at the end.
function word(   w) {
    while (rest ~ /^[ \t]*(\/\/.*)?$/) if (!next_line()) return ""
    sub(/^[ \t]+/, "", rest)
    if (!match(rest, /^([A-Za-z0-9_]+|b'(\\.[^']*|[^\\'])'|b"([^"\\]|\\.)*"|"C"|'[a-z]+)/)) RLENGTH = 1
    w = substr(rest, 1, RLENGTH)
    rest = substr(rest, RLENGTH + 1)
    if (w == "'" || w == "\"" || w == "/" && rest ~ /^[*]/) return refuse(w)
    return w
}

function next_line() {
    if (lost || (getline rest < file) <= 0) {
        rest = ""
        return 0
    }
    line++
    # a quoted name: each of the two quotes is two bytes
    while (match(rest, /«[A-Za-z0-9_]+»/)) rest = substr(rest, 1, RSTART - 1) substr(rest, RSTART + 2, RLENGTH - 4) substr(rest, RSTART + RLENGTH)
    return 1
}

function follows(words,   next_of, count, i, w) {
    count = split(words, next_of, " ")
    for (i = 1; i <= count; i++) if ((w = word()) != next_of[i]) return refuse(w)
    return 1
}

# The rest of the file is not read: it may mean anything.
function refuse(what) {
    if (!lost) fall(file ":" line, "this is not understood: " (what == "" ? "the end of the file" : what))
    lost = 1
    rest = ""
    return ""
}
