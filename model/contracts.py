"""Holds the table of docs/CONTRACTS.md to the code: every function that another crate can call.

    python3 model/contracts.py [--write]

A function is callable from another crate where it is `pub` in a crate's lib.rt, is exported there by
`pub use`, or is a `pub` method of a type that is, or a method of a trait that such a type, or one of
another crate, has by an `impl TRAIT for TYPE`. What states a trait's method is the trait's law of it,
which the ghost member of the impl fills in: `from_gives` of `from`, `next_gives` of `next`, `output` of
`fmt`, one of the method's own name of `cmp`. For each, the table has which definitions of the
crates' specs its statement cites, whether it asks something of its caller, and the theorem that no
two results meet its statement, or on what ground there is none. The exports to C have no rows of their
own: each is held to state, word for word, what the function of its name in the crate `asterix` states.

Held, each difference being a line and the exit status 1: no function without a row, no row without a
function; each function states its result, by its clauses or by what its result's type keeps of
itself, and of each buffer lent to be written to, `self` too, what it then holds; a theorem is named
`one_` and the function's name (its type's before it, where two share one), stands in a file of the
crate's proofs whose name ends in Unique, has as hypotheses, twice, the very words of the function's
statement (of a trait's method those of the ghost member, at its arguments, its result and what `self`
then is), and beside them only what types give (a bound by a power of two) or the function asks, ends
in that the results, and what is left in lent buffers, are the same, and is of no other function; a
function without one has its ground in the table. --write makes the rows anew, grounds kept.
"""

import pathlib
import re
import sys

ROOT = pathlib.Path(__file__).resolve().parents[1]
PAGE = ROOT / "docs" / "CONTRACTS.md"
HEAD = "| Crate | Function | Its statement cites | Asks | One result |\n|--|--|--|--|--|\n"

# The crate whose functions are exported to C, and the one that has them under the same names with the same statements. Those have the rows.
EXPORTS, EXPORTED = "asterix_c", "asterix"

differences = []


def differ(sentence):
    differences.append(sentence)
    print(sentence)


# ---- the code

def clause(text, start):
    """The braces that open at or after start, and where they end."""
    opened = text.index("{", start)
    depth = 0
    for at in range(opened, len(text)):
        depth += {"{": 1, "}": -1}.get(text[at], 0)
        if depth == 0:
            return text[opened + 1:at], at + 1
    raise ValueError("a brace is not closed")


def applied(member, arguments):
    """A ghost member at its arguments, in a clause's words: where it is a function, what it says of them."""
    function = re.match(r"λ ([^.]*)\. ", member)
    if not function:
        return " ".join([member] + arguments)
    names = function.group(1).split()
    given = {name: argument for name, argument in zip(names, arguments) if name != "_"}
    said = re.sub(r"(?<![\w.])[^\W\d]\w*(?![\w'])", lambda word: given.get(word.group(), word.group()), member[function.end():])
    return " ".join(["(%s)" % said] + arguments[len(names):]) if arguments[len(names):] else said


class Function:
    def __init__(self, crate, owner, name, known, text, start, trait=None, members=None):
        """known: the definitions of specs that its file brings in. members: of a trait's method the ghost members of its impl."""
        self.crate, self.owner, self.name, self.known, self.trait = crate, owner, name, known, trait
        opened = text.index("(", start)
        depth, at = 0, opened
        while True:
            depth += {"(": 1, ")": -1}.get(text[at], 0)
            at += 1
            if depth == 0:
                break
        self.parameters = {}
        for parameter in re.split(r",(?![^\[]*\])", text[opened + 1:at - 1]):
            if re.fullmatch(r"\s*(?:&(?:'\w+ )?)?(?:mut )?self\s*", parameter):
                self.parameters["self"] = " ".join(parameter.replace("self", "Self").split())
            elif ":" in parameter:
                left, kind = parameter.split(":", 1)
                self.parameters[left.replace("mut ", "").strip()] = " ".join(kind.split())
        self.result = ""
        self.requires, self.ensures, self.kept = [], [], []
        while True:
            word = re.compile(r"\s*(->\s*[^{;]*?(?=\s+(?:requires|ensures)\b|\s*\{)|(requires|ensures)(?:\s+\w+)?(?=\s*\{))").match(text, at)
            if not word:
                break
            if word.group(1).startswith("->"):
                self.result = " ".join(word.group(1)[2:].split())
                at = word.end()
                continue
            body, at = clause(text, word.end())
            (self.requires if word.group(2) == "requires" else self.ensures).append(" ".join(body.split()))
        # clauses of a method's own stand in the place of its trait's
        if trait and not self.ensures:
            self.by_law(members)

    def by_law(self, members):
        """What the ghost members of its impl say of a trait's method."""
        lent = [name for name, kind in self.parameters.items() if kind.startswith("&mut")]
        given = [name + (".old" if name in lent else ".now" if kind.startswith("&") else "") for name, kind in self.parameters.items()]
        if "can_" + self.name in members:
            self.requires.append(applied(members["can_" + self.name], given))
        if self.name + "_gives" in members:
            self.ensures.append(applied(members[self.name + "_gives"], given + ["result"] * bool(self.result) + [name + ".new" for name in lent]))
        elif self.name in members:
            self.ensures.append("result ≡ " + applied(members[self.name], given))
        elif self.name == "fmt" and "output" in members:
            self.ensures.append("%s.new by output %s" % (lent[0], applied(members["output"], given[:1])))

    @property
    def title(self):
        if self.trait:
            return "<%s as %s>::%s" % (self.owner, self.trait, self.name)
        return "%s::%s" % (self.owner, self.name) if self.owner else self.name

    @property
    def theorems(self):
        """What its theorem may be called: by its name, or by its type's and its own where two of a crate share a name."""
        bare = re.sub(r"^asterix_", "", self.name)
        if not self.owner:
            return ["one_" + bare]
        owner = "_".join(re.sub(r"(?<=.)([A-Z])", r"_\1", part).lower() for part in re.findall(r"\w+", re.sub(r"<.*", "", self.owner)))
        return ["one_" + bare, "one_%s_%s" % (owner, bare)]

    def hypothesis(self, said, which):
        """A clause in a theorem's words, of the result a and what is left, or of b and what is right."""
        said = re.sub(r"(?<![\w.])self\.(?:now|old)\b", "self", said)
        for name, kind in self.parameters.items():
            if kind.startswith("&"):
                # a clause that speaks of the reference itself has what it holds beside it
                said = re.sub(r"(?<![\w.])%s\.(?:%s)\b" % (name, "entry" if name + ".entry" in said else "now|old"), name, said)
                said = re.sub(r"(?<![\w.])%s\.new\b" % name, "left" if which == "a" else "right", said)
        return re.sub(r"(?<![\w.])result\b", which, said)


def same_statement(one, other):
    return all(getattr(one, part) == getattr(other, part) for part in ("name", "parameters", "result", "requires", "ensures"))


def bare(text):
    return re.sub(r"//[^\n]*", "", text)


def kept_facts():
    """The facts that each struct keeps of itself by its ghost fields, or by those of its fields' types: of each name of a type, the names of the fields."""
    facts, fields = {}, {}
    for source in sorted((ROOT / "crates").glob("*/src/*.rt")):
        for word in re.finditer(r"(?m)^[ \t]*(?:pub(?:\(\w+\))? )?struct (\w+)[^{;(]*(?=\{)", bare(source.read_text())):
            body, _ = clause(bare(source.read_text()), word.end())
            facts[word.group(1)] = re.findall(r"\bghost (\w+): \{", body)
            fields[word.group(1)] = re.findall(r"\b\w+: (\w+)\b", body)
    return {name: own + [fact for kind in fields[name] for fact in facts.get(kind, [])] for name, own in facts.items()}


def functions_in(crate, text, exported, everything, private):
    """private: the types and traits of the crate that no other can name."""
    found = []
    impls = []
    known = {name for names in re.findall(r"(?m)^ghost use Rattle\.(?!std\.)\S+\.\{(.*)\};", text) for name in names.split(", ")}
    for block in re.finditer(r"(?m)^impl (\w+)(?:<[^>]*>)? (?=\{)", text):
        _, end = clause(text, block.end())
        impls.append((block.start(), end, block.group(1)))
    for word in re.finditer(r"(?m)^[ \t]*pub (?:extern \"C\" )?fn (\w+)(?:<[^>]*>)?", text):
        owner = next((name for first, last, name in impls if first < word.start() < last), None)
        if everything or (owner or word.group(1)) in exported:
            found.append((word.start(), Function(crate, owner, word.group(1), known, text, word.end())))
    for block in re.finditer(r"(?m)^impl\b(?:<[^{;]*?>)? ([^{;]+?) for ([^{;]+?)\s*(?=\{)", text):
        trait, owner = (" ".join(re.sub(r"\bwhere\b.*", "", part, flags=re.S).split()) for part in block.groups())
        if private & set(re.findall(r"(?<!:)\b\w+", trait + " " + owner)):
            continue
        body, end = clause(text, block.end())
        members = {word.group(1): " ".join(clause(body, word.end())[0].split()) for word in re.finditer(r"\bghost (\w+) = (?=\{)", body)}
        for word in re.finditer(r"(?m)^[ \t]*fn (\w+)(?:<[^>]*>)?", text[:end]):
            if block.end() < word.start():
                found.append((word.start(), Function(crate, owner, word.group(1), known, text, word.end(), trait, members)))
    return [function for _, function in sorted(found, key=lambda one: one[0])]


def callable_functions():
    found = []
    for line in (ROOT / "crates.txt").read_text().splitlines():
        crate = line.split("#")[0].split(":")[0].partition(" ")[0].strip()
        root = ROOT / "crates" / crate / "src" / "lib.rt"
        if not crate or not root.exists():
            continue
        text = bare(root.read_text())
        exported = {name for names in re.findall(r"(?m)^pub use (?:\w+::)*(\w+|\{[^}]*\});", text) for name in re.findall(r"\w+", names)}
        others = [bare(other.read_text()) for other in sorted(root.parent.glob("*.rt")) if other != root]
        named = {name for source in [text] + others for name in re.findall(r"\b(?:struct|enum|trait) (\w+)", source)}
        private = named - exported - set(re.findall(r"\bpub (?:struct|enum|trait) (\w+)", text))
        found += functions_in(crate, text, exported, True, private)
        for other in others:
            found += functions_in(crate, other, exported, False, private)
    return found


# ---- the proofs

def theorems(crate):
    """The statement of each theorem of a crate's files of uniqueness, on one line."""
    found = {}
    for proof in (ROOT / "crates" / crate / "proofs").glob("*Unique.antt"):
        text = re.sub(r"--[^\n]*", "", proof.read_text(encoding="utf-8"))
        for name, statement in re.findall(r"(?m)^pub (one_\S+) :(.*?)\n(?=\S)", text + "\n", re.S):
            found[name] = " ".join(statement.split())
    return found


def parts(statement):
    """The hypotheses of a statement, and what it ends in."""
    found, depth, start = [], 0, 0
    for at, letter in enumerate(statement):
        depth += {"(": 1, "{": 1, ")": -1, "}": -1}.get(letter, 0)
        if letter == "→" and depth == 0:
            found.append(statement[start:at].strip())
            start = at + 1
    found.append(statement[start:].strip())
    found[0] = re.sub(r"^(?:(?:\([^()]*(?:\([^()]*\)[^()]*)*\)|\{[^{}]*\})\s*)+$", "", found[0])
    return [said for said in found[:-1] if said], found[-1]


def check(function, statements, plain):
    """The theorem's name, or None. plain: the names of theorems of functions that no type owns."""
    where = "%s::%s" % (function.crate, function.title)
    if not function.ensures and not function.kept:
        differ("%s states nothing" % where)
    for name, kind in function.parameters.items():
        # a reader is no buffer: what it still has, no contract of a read says
        if kind.startswith("&mut") and not re.fullmatch(r"&mut [A-Z]", kind) and not any(re.search(r"(?<![\w.])%s\.new\b" % name, said) for said in function.ensures):
            differ("%s does not state what %s then holds" % (where, name))
    name = next((n for n in reversed(function.theorems) if n in statements and not (function.owner and n in plain)), None)
    if name is None:
        return None
    there, last = parts(statements[name])
    wanted = [function.hypothesis(said, which) for said in function.ensures for which in ("a", "b")]
    for said in wanted:
        if said not in there:
            differ("%s: %s does not have the hypothesis %s" % (where, name, said))
    given = [function.hypothesis(said, "a") for said in function.requires]
    for said in there:
        if said not in wanted and said not in given and not re.fullmatch(r"\S+ < 2 \^ \d+", said):
            differ("%s: %s has the hypothesis %s, which is not the function's" % (where, name, said))
    same = []
    if function.result.startswith("&"):
        same += ["(a.ref_ptr ≡ b.ref_ptr)", "(a.now ≡ b.now)"]
    elif function.result:
        same += ["a ≡ b"]
    if any(kind.startswith("&mut") for kind in function.parameters.values()):
        same += ["left ≡ right"]
    wrapped = " × ".join(said if said.startswith("(") else "(%s)" % said for said in same) if len(same) > 1 else same[0]
    if last != wrapped:
        differ("%s: %s ends in %s, not in %s" % (where, name, last, wrapped))
    return name


# ---- the page

def rows(text):
    there = {}
    for line in text.split(HEAD, 1)[1].splitlines() if HEAD in text else []:
        if not line.startswith("| "):
            break
        crate, title, cites, asks, once = [cell.strip() for cell in line.strip("|").split("|")]
        there[crate.strip("`"), title.strip("`")] = (cites, asks, once)
    return there


def main(arguments):
    text = PAGE.read_text(encoding="utf-8")
    if HEAD not in text:
        sys.exit("docs/CONTRACTS.md has no table with the head\n" + HEAD)
    there = rows(text)
    made = {}
    used = {}
    functions = callable_functions()
    kept = kept_facts()
    for function in functions:
        function.kept = kept.get(function.owner if function.result == "Self" else re.sub(r"<'[^>]*>", "", function.result), [])
        if function.crate == EXPORTS and not function.trait:
            continue
        statements = theorems(function.crate)
        plain = {f.theorems[0] for f in functions if f.crate == function.crate and not f.owner}
        key = (function.crate, function.title)
        name = check(function, statements, plain)
        if name in used.setdefault(function.crate, set()) - {None}:
            differ("%s::%s: %s is another function's" % (*key, name))
        used[function.crate].add(name)
        cited = []
        for said in function.ensures:
            for word in re.findall(r"[^\s(){},;.]+", said):
                if word in function.known and word not in function.parameters and word not in cited:
                    cited.append(word)
        says = ", ".join("`%s`" % word for word in cited) or "; ".join("`%s`" % said for said in function.ensures)
        if function.kept:
            says = "; ".join(filter(None, [says, "by its type: " + ", ".join("`%s`" % fact for fact in dict.fromkeys(function.kept))]))
        ground = there.get(key, ("", "", ""))[2]
        if name:
            once = "`%s`" % name
        elif ground and not ground.startswith("`one_"):
            once = ground
        else:
            once = ""
            differ("%s::%s: no theorem %s, and no ground in docs/CONTRACTS.md" % (*key, " or ".join(function.theorems)))
        made[key] = (says, "yes" if function.requires else "", once)
    exported = {function.name: function for function in functions if function.crate == EXPORTS and not function.trait}
    own = {function.name: function for function in functions if function.crate == EXPORTED and not function.trait}
    for name in sorted(exported.keys() ^ own.keys()):
        differ("%s: it is in one of %s and %s alone" % (name, EXPORTED, EXPORTS))
    for name in sorted(exported.keys() & own.keys()):
        if not same_statement(exported[name], own[name]):
            differ("%s::%s does not state what %s::%s states" % (EXPORTS, name, EXPORTED, name))
    for crate in used:
        for name in theorems(crate):
            if name not in used[crate]:
                differ("%s: %s is of no callable function" % (crate, name))
    if "--write" in arguments:
        before, after = text.split(HEAD, 1)
        rest = re.sub(r"\A(?:\|.*\n)*", "", after)
        table = "".join("| `%s` | `%s` | %s | %s | %s |\n" % (*key, *cells) for key, cells in made.items())
        PAGE.write_text(before + HEAD + table + rest, encoding="utf-8")
    else:
        for key in there:
            if key not in made:
                differ("docs/CONTRACTS.md has %s::%s, which no crate can call" % key)
        for key, cells in made.items():
            if key not in there:
                differ("docs/CONTRACTS.md has no row for %s::%s" % key)
            elif there[key] != cells:
                differ("docs/CONTRACTS.md on %s::%s: it has %s, the code %s" % (*key, there[key], cells))
    print("contracts: %d callable functions, %d with a theorem of one result; %d exported to C; %d differences" % (
        len(made), sum(cells[2].startswith("`one_") for cells in made.values()), len(exported), len(differences)))
    return 1 if differences else 0


if __name__ == "__main__":
    sys.exit(main(sys.argv[1:]))
