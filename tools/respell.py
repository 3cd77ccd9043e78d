#!/usr/bin/env python3
"""respell: the repository's own words in this Rattle's style of names.

Run it at the repository's top, with no arguments, on what the stock script for a newer Rattle left; a second run writes nothing. Definitions, lemmas, record
fields and constructors that are still in camel case or joined by dashes become snake case (`toLe` is `to_le`, `field-more` is `field_more`); a name that begins
with a capital keeps it, and only its dashes turn. What is renamed is declared in specs/ or in the lemma files of proofs/, or is a helper among the answers of a
function's proof; what a file binds for itself turns with them. Left alone are a library's names, the answers to generated goals and what a generated goal brings,
Rust's and C's names, quoted text, inputs and outputs. A word turns unless its file has it from a library; behind a dot it turns if it is an own name. So do the
clauses of src/*.rt, the must-fail edits, and code spans of the pages and of comments; these also speak of names that the stock script had turned before (STOCK).

Names that would fall together with another one are in OTHERWISE and IN_THE_WAY. What is in doubt is printed: words that fall together, a word of a clause that the
function's own names hide, imports that name nothing, and steps of a proof that are spelled as an own name and stay."""
import re
import sys
from collections import Counter, defaultdict
from pathlib import Path

# names that are spelled otherwise than by the rule alone
OTHERWISE = {
    # a lemma that would have its function's name gets `_lem`
    "clock-text": "clock_text_lem",
    "counts-number": "counts_number_lem",
    "entries-rest": "entries_rest_lem",
    "entries-to": "entries_to_lem",
    "good-entries": "good_entries_lem",
    "good-rows": "good_rows_lem",
    "is-note": "is_note_lem",
    "is-symbol": "is_symbol_lem",
    "ladder-number": "ladder_number_lem",
    "length-first": "length_first_lem",
    "most-fields": "most_fields_lem",
    "of-key": "of_key_lem",
    "packets-to": "packets_to_lem",
    "passed-by": "passed_by_lem",
    "price-text": "price_text_lem",
    "read-body": "read_body_lem",
    "same-slot": "same_slot_lem",
    "sheet-number": "sheet_number_lem",
    "spread-number": "spread_number_lem",
    "stamp-of": "stamp_of_lem",
    "stored-in": "stored_in_lem",
    "update-fault": "update_fault_lem",
    # the function is `get_or` now
    "getD-cut": "get_or_cut",
    "getD-padded": "get_or_padded",
    "getD-piece": "get_or_piece",
    "getD-pieces": "get_or_pieces",
    "getD-zeros": "get_or_zeros",
    # its result is a type
    "other-answer": "OtherAnswer",
}

# names that the stock script turned, and that would hide a function which turns now: the file, the name, the new name, and the file that declares it
IN_THE_WAY = (
    ("crates/lines/proofs/Said.antt", "number_ok", "number_ok_lem", "crates/lines/proofs/Said.antt"),
    ("crates/trips/proofs/Messages.antt", "read_as", "read_as_lem", "crates/trips/proofs/Messages.antt"),
    ("crates/views/proofs/Levels.antt", "in_place", "in_place_lem", "crates/views/proofs/Levels.antt"),
    ("crates/writer/proofs/Laws.antt", "number_ok", "good_number", "crates/writer/proofs/Laws.antt"),
    ("crates/writer/proofs/Behind.antt", "number_ok", "good_number", "crates/writer/proofs/Laws.antt"),
)

# what the stock script turned before
STOCK = """
add-at add-low add-r add-read add-spec after-is after-kept after-next after-same aheadOf alike-same all-append all-cons all-fit all-in all-join
all-map all-more all-named all-of all-right all-same all-take all-there allFrom and-both answerOf any-sum as-before as-it-was as-many as-one as-passed
at-body at-byte at-front at-head at-map at-most at-once at-told before-at below-at between-none bits-below bits-met bitsOf block-at block-in
block-more block-none block-on block-out block-start blocks-is body-at body-back body-bytes body-is body-kept body-refused bodyOf both-end both-go
both-hold both-is both-long both-of both-ok both-one both-true both-yes by-index by-number by-old by-place by-read byId byteAt bytes-back bytes-drop
bytes-take bytesOf call-along came-from cast-t chain-more clear-at clear-kept clear-none clear-spec codeOf convertCode copy-spec count-no count-none
count-past count-same count-turn count-yes countOf counted-spec cut-fits cut-line digits-more drain-kept drain-rest each-more either-same either-true
end-is enter-one enter-spec entry-known entry-past entry-read entryOf enum-told every-append every-map falls-below fed-then field-alike field-below
field-past field-plain field-step fieldAt fields-back fieldsOf fill-here fill-spec filled-more find-spec first-byte first-of first-short fit-parts
fit-same fits-in framed-is framed-kept free-new free-walk from-all from-fields from-some front-bytes front-kept front-length front-of get-other
getD-rows give-spec given-is goes-on group-of head-few head-spec headOf held-on heldAt id-wrong idOf idsIn in-list in-place in-rest in-two in-window
index-kept indexAfter indexOf is-framed is-known is-turned is-whole isAt isOrder isPlain isType isWritten join-more joined-is key-back keyAt keyOf
kindOf laid-end laid-from laid-more laid-on last-fits last-set le-below left-is left-over len-is length-cut length-most length-rest length-three
length-to lengthOf lent-back line-of line-plain lineOf lines-then linesOf look-hit look-stop lt-of made-by made-so map-back map-more map-next
map-range map-row map-snoc more-left mostOf mul-at name-back nameOf named-back named-by named-end named-none namedOf names-same near-step never-both
next-fits next-grows no-body no-index no-kind no-length no-note no-one no-part no-place no-room no-row no-second no-six no-stop no-such no-symbol
noRow none-after none-came none-done none-each none-filled none-first none-here none-is none-left none-passed none-said none-told not-found not-free
not-live not-there nothing-said number-bound number-fits number-is number-ok number-past number-same number-short numberIn numberOf ok-same one-alike
one-along one-byte one-kept one-less one-more one-number one-of-three one-on one-place one-written oneOf only-no only-yes onlyIf opens-not orElse
order-below order-is order-same orderBy orderIn orderOf other-byte other-length otherOf others-keep own-any own-is pair-same part-bytes part-length
part-stays partOf pass-spec passed-length passed-on passedBy pick-ind pieceOf pieces-are pieces-kept place-end place-is placeOf placed-at placesOf
plain-back plainOf plus-none push-spec put-both put-in put-is put-refused put-self put-spec range-at range-none rankOf read-above read-again read-as
read-back read-below read-more read-one read-past read-same readBody readOn record-is rest-end rest-from rest-part rest-put restOf row-below row-read
row-written rowOf rows-few rowsOf run-fits run-holds run-is run-length run-none run-spec runs-same saidOf same-answer same-body same-bytes same-key
same-kind same-left same-length same-number same-place same-refl same-runs same-size same-stop same-tables second-fits second-is set-else set-here
set-twice shareOf shift-none sideIn sideOf signed-same signedOf size-is size-top sizeAt slot-cases slot-is slot-lt slot-same slotAt slotOf so-far
soFar some-known some-number spell-last spreadOf stands-at start-spec stateOf step-end step-gives step-room step-spec stop-goes stop-is store-spec
stored-is stored-there storedAt sub-same sum-bound sum-past sum-row sum-step symbolOf table-is tagOf take-all-spec take-more take-spec taken-here
taken-none tallyOf text-same textOf the-second there-and-back to-is told-back told-fit told-here told-of too-short trim-start turn-below turn-more
turn-spec two-back typeAt typeOf under-none under-split up-neg update-same valueAt values-join waiting-kept walk-end walk-more walk-none was-free
whole-here whole-is wipe-one withFlags word-first wordOf words-more work-step worked-fit written-back written-none written-once wrote-as wrote-kept
wrote-none wrote-then zero-is
"""

# names that are plain words, too, and stay in a comment that does not mark them as code
PLAIN = {"over-long", "well-formed"}

# pages that are history or a patch
LEFT = ("docs/LANDINGS.md", "docs/morning-as-text.patch")

WORD = re.compile(r"[^\s(){}.;,@\"«»]+")
QUIET = re.compile(r'"(?:[^"\\\n]|\\.)*"|(?<![^\s(){}.;,@"«»])--[^\n]*|\{-.*?-\}', re.S)
RUST_QUIET = re.compile(r"""//[^\n]*|/\*.*?\*/|b?"(?:\\.|[^"\\])*"|b?'(?:\\.|[^'\\])'""", re.S)
SPAN = re.compile(r"`[^`\n]+`")
USE = re.compile(r"(?m)^[ \t]*(?:pub )?(?:ghost )?(?:open )?use ([^\s{;]+?)(?:\.?\{([^{}]*)\}|\.([^\s.{};]+))?(?: as (\S+?))?;?[ \t]*$")
DECLARED = re.compile(r"(?m)^([ \t]*)(?!(?:pub |abbrev |private )*(?:data|record|module|use|let|infix)(?=\s))((?:(?:pub|unfoldable|abbrev|private) )*)([^\s(){}.;,@\"«»:=]+(?: [^\s(){}.;,@\"«»:=]+)*)((?: \{[^}\n]*\})*) :(?=\s)(.*(?:\n(?=\1[ \t]+\S).*)*)")
TYPE = re.compile(r"(?m)^[ \t]*(?:(?:pub|abbrev|private) )*(?:data|record) (\S+)")
MODULE = re.compile(r"(?m)^[ \t]*(?:pub )?module ([^\s_]\S*)")
CLAUSE = re.compile(r"\b(?:(?:requires|ensures)\s*(?:\w+\s*)?|ghost\s*(?:\w+\s*)?)\{|ghost\s+use\b")
FUNCTION = re.compile(r"\bfn\s+(\w+)[^(]*\(")
HEADS = {"let", "in", "data", "record", "module", "use", "infix", "→", "|", "↦", "λ", "where", "unfolding"}
KEYWORDS = {"result", "record", "data", "open", "ruleset", "where", "module", "use", "let", "in", "rw", "refl", "search", "rules", "omega", "absurd", "abbrev", "with"}


def turned(name):
    """The name in this style."""
    if name in OTHERWISE:
        return OTHERWISE[name]
    new = name.replace("-", "_")
    return new if re.match(r"◌?[A-Z]", new) else re.sub(r"(?<=[a-z0-9'])[A-Z]+", lambda m: "_" + m[0].lower(), new)


def old(name):
    """Whether the name is in the old spelling."""
    return turned(name) != name and re.search(r"[A-Za-z]", name) and not name.startswith("-")


def pieces(name):
    """An operator is declared with its places, and used without: `◌isMinus◌` is `isMinus`."""
    return [name, *(p for p in name.split("◌") if p)] if "◌" in name and len(name) > 1 else [name]


def blanked(text, quiet):
    return quiet.sub(lambda m: re.sub(r"[^\n]", " ", m[0]), text)


def between(pattern, text, inside, outside):
    out, at = [], 0
    for m in pattern.finditer(text):
        out += [outside(text[at:m.start()], at), inside(m)]
        at = m.end()
    return "".join([*out, outside(text[at:], at)])


def closing(text, at):
    depth = 1
    while depth and at < len(text):
        depth += (text[at] == "{") - (text[at] == "}")
        at += 1
    return at - 1


class Module:
    """An antt file: what it declares and what it imports."""

    def __init__(self, path):
        self.path = path
        crate, *inner = path.relative_to("crates").with_suffix("").parts
        self.name = ".".join(("Rattle", crate, *inner))
        self.text = path.read_text()
        self.code = blanked(self.text, QUIET)
        self.answers_goals = inner[0] == "proofs" and len(inner) > 2
        self.declares, self.stays, self.exports = set(), set(), set()
        for m in DECLARED.finditer(self.code):
            words = m[3].split()
            if words[0] in HEADS or HEADS & set(words):
                continue
            for word in words:
                for name in pieces(word):
                    stays = self.answers_goals and (re.search(r"\btie\.|\bstatement\b", m[5]) or re.search(r"[-_]spec$", name))
                    (self.stays if stays else self.declares).add(name)
        for m in TYPE.finditer(self.code):
            self.declares.add(m[1])
        self.modules = {m[1] for m in MODULE.finditer(self.code)}
        self.uses = list(imports(self.code))


def imports(code):
    """Each import: the module, the names in braces with what they are called here, and the alias of the whole."""
    for m in USE.finditer(code):
        if m[2] is not None:
            items = [i.split() for i in m[2].split(",") if i.strip()]
            yield m[1].rstrip("."), [(i[0], i[2] if len(i) == 3 else i[0]) for i in items], None
        elif m[3] and m[4] is None:
            yield m[1], [(m[3], m[3])], None
        else:
            yield m[1] + ("." + m[3] if m[3] else ""), [], m[4]


class Respelling:
    def __init__(self):
        self.crates = {p.name for p in Path("crates").iterdir() if p.is_dir()}
        files = sorted([*Path("crates").glob("*/specs/**/*.antt"), *Path("crates").glob("*/proofs/**/*.antt")])
        self.modules = {m.name: m for m in map(Module, files)}
        self.stock = {name: turned(name) for name in STOCK.split()}
        # every own name that still is in the old spelling, and the modules that declare it
        self.own = defaultdict(set)
        for m in self.modules.values():
            for name in m.declares:
                if old(name):
                    self.own[name].add(m.name)
        self.rust = [(p, p.read_text()) for p in sorted(Path("crates").glob("*/src/**/*.rt"))]
        self.found, self.clashes, self.unsure, self.pages = Counter(), [], Counter(), Counter()
        self.written = []
        declares = {str(m.path): m.declares for m in self.modules.values()}
        self.again = defaultdict(dict)
        for path, name, new, by in IN_THE_WAY:
            if name in declares.get(by, ()) and any(turned(n) == name != n for n in self.own):
                self.again[path][name] = new

    def is_own(self, module):
        parts = module.split(".")
        return len(parts) > 2 and parts[0] == "Rattle" and parts[1] in self.crates

    def module_of(self, name):
        """The file of a module, or of a type or module inside it."""
        while name and name not in self.modules:
            name = name.rpartition(".")[0]
        return self.modules.get(name)

    def names_nothing(self):
        """Imports of own modules that name nothing, but for what Rattle makes."""
        for where, code in [(m.path, m.code) for m in self.modules.values()] + [(p, t) for p, t in self.rust]:
            for module, items, _ in imports(code):
                there = self.is_own(module) and self.module_of(module)
                if there:
                    known = there.declares | there.stays | there.modules
                    for name, _ in items:
                        if name not in known and not any(p in known for p in pieces(name)):
                            yield f"{where}: {name} of {module}"

    def scope(self, code, module=None):
        """Words of a file: those that turn, those that stay, and the aliases of own modules and of others."""
        turn, stay, aliases, others = set(), set(), set(), set()
        if module:
            turn |= {n for n in module.declares if old(n)}
            stay |= module.stays
        for name, items, alias in imports(code):
            there = self.is_own(name) and self.module_of(name)
            if alias:
                (aliases if there else others).add(alias)
            for it, here in items:
                known = there and (it in there.declares or any(p in there.declares for p in pieces(it)))
                for spelled in (it, here):
                    for p in pieces(spelled):
                        if known and old(p):
                            turn.add(p)
                        elif not known:
                            stay.add(p)
        if module:
            stay -= module.declares
            if module.answers_goals:
                stay |= aliases | others
            # the rest is what a file binds for itself
            for m in WORD.finditer(USE.sub(lambda u: " " * len(u[0]), code)):
                if old(m[0]) and code[m.start() - 1:m.start()] != ".":
                    turn.add(m[0])
        return turn - stay - others, stay | others, aliases, others

    def word(self, m, text, turn, stay, others, steps, where):
        """A word of code, turned if it is known for an own one."""
        name = m[0]
        if name in self.again[str(where)]:
            self.found[name] += 1
            return self.again[str(where)][name]
        if not old(name):
            return name
        dotted = m.start() and text[m.start() - 1] == "."
        if dotted:
            chain = re.search(r"[^\s(){};,@\"«»]*$", text[:m.start()])[0].split(".")
            if name not in self.own or chain[0] in others:
                return name
            if steps(chain):
                self.unsure[f"{where}: {'.'.join(chain)}{name}"] += 1
                return name
        elif name not in turn:
            return name
        self.found[name] += 1
        return turned(name)

    def code(self, text, scope, where, steps):
        turn, stay, aliases, others = scope
        use = re.compile(r"(?m)^([ \t]*(?:pub )?(?:ghost )?use )([^\s{;]+)")
        # the path of a module stays
        paths = [m.span(2) for m in use.finditer(text) if not text[m.end():m.end() + 1] == ";" or "{" in text[m.end():]]
        inside = lambda at: any(a <= at < b for a, b in paths)
        return WORD.sub(lambda m: m[0] if inside(m.start()) else self.word(m, text, turn, stay, others, steps, where), text)

    def prose(self, text, turn):
        """A comment or a line of a page: names in code spans, and outside them those that are no plain words."""
        camel = re.compile(r"[a-z0-9][A-Z]")
        bare = lambda n: n in turn and n not in PLAIN or (n in self.own or n in self.stock) and camel.search(n)
        return between(SPAN, text, lambda m: self.span(m[0]), lambda t, _: self.words(t, bare, False))

    def span(self, text):
        if re.match(r"`(?:\$ |\./|rt |tools/|python3 |cargo |git |crates/|examples/)", text) or "/" in text:
            return text
        return self.words(text, lambda n: n in self.own or n in self.stock, True)

    def words(self, text, may, code):
        part = re.compile(r"[^\s(){}.;,@\"«»`\[\]|/:*…⟨⟩]+")

        def one(m):
            around = text[max(0, m.start() - 1):m.start()] + text[m.end():m.end() + 1]
            if "/" in around or not old(m[0]) or not may(m[0]):
                return m[0]
            if m[0].rstrip("'") == m[0] and text[m.end():m.end() + 1] == "." and re.match(r"\.(?:py|rec|edit|sh|md|antt|rt)\b", text[m.end():]):
                return m[0]
            self.pages[m[0]] += 1
            return turned(m[0])

        return part.sub(one, text)

    def write(self, path, before, after):
        if before != after:
            path.write_text(after)
            self.written.append(path)

    def together(self, where, code, turn):
        """Words that a file has already in the spelling that another of its words gets."""
        words, got = set(), defaultdict(set)
        again = self.again[str(where)]
        for m in WORD.finditer(code):
            if not m.start() or code[m.start() - 1] != ".":
                words.add(again.get(m[0], m[0]))
        for name in turn:
            got[turned(name)].add(name)
        for new, names in sorted(got.items()):
            if len(names) > 1:
                self.clashes.append(f"{where}: {' and '.join(sorted(names))} would be {new}")
            if new in words or new in KEYWORDS:
                self.clashes.append(f"{where}: {new} is there, and {' '.join(sorted(names))} would be it")

    def antt(self, m):
        scope = self.scope(m.code, m)
        self.together(m.path, m.code, scope[0])
        if m.answers_goals:
            first = {"args", "before", "initial"}
            steps = lambda chain: re.fullmatch(r"[a-z]|goal|tie|reads|lts|.*-reads", chain[0]) and all(c in first or re.search(r"-|^if\d|^loop|^match", c) for c in chain[1:] if c)
        else:
            steps = lambda chain: False
        quiet = lambda q: q[0] if q[0][0] == '"' else self.prose(q[0], scope[0])
        self.write(m.path, m.text, self.parts(m.text, QUIET, quiet, lambda t: self.code(t, scope, m.path, steps)))

    def parts(self, text, quiet, said, code):
        """Code is read whole, with what is quiet blanked, so that a word's surroundings are at hand."""
        return between(quiet, text, said, lambda t, _: code(t))

    def rt(self, path, text):
        bare = blanked(text, RUST_QUIET)
        scope = self.scope(bare)
        spans = []
        for m in CLAUSE.finditer(bare):
            end = bare.index(";", m.end()) if m[0].endswith("use") else closing(bare, m.end())
            if not spans or m.start() >= spans[-1][1]:
                spans.append((m.start(), end))
        self.parameters(path, bare, spans)
        clauses = "\n".join(bare[a:b] for a, b in spans)
        self.together(path, clauses, scope[0])
        out, at = [], 0
        for a, b in [*spans, (len(text), len(text))]:
            rust = text[at:a]
            out.append(between(RUST_QUIET, rust, lambda q: self.prose(q[0], scope[0]) if q[0][:2] in ("//", "/*") else q[0], lambda t, _: t))
            quiet = lambda q: self.prose(q[0], scope[0]) if q[0][:2] in ("//", "/*", "--") else q[0]
            out.append(between(RUST_QUIET, text[a:b], quiet, lambda t, _: self.code(t, scope, path, lambda chain: False)))
            at = b
        self.write(path, text, "".join(out))

    def parameters(self, path, bare, spans):
        """Words of clauses that a parameter hides: of each function, from its head to the next one's."""
        words = {h for _, items, _ in imports(bare) for _, h in items}
        heads = list(FUNCTION.finditer(bare))
        for head, after in zip(heads, [*heads[1:], None]):
            end = after.start() if after else len(bare)
            body = bare[head.end():end]
            bound = set(re.findall(r"(?:\bmut )?\b(\w+): ", body.split("{")[0])) | set(re.findall(r"\blet (?:mut )?(\w+)", body)) | set(re.findall(r"\bfor (\w+) in", body))
            cited = {w for a, b in spans if head.start() <= a < end for w in WORD.findall(bare[a:b])}
            for word in sorted(words):
                new = turned(word)
                if word in cited and new in bound | KEYWORDS:
                    self.clashes.append(f"{path}: fn {head[1]} binds {new}, which its clauses cite")

    def edit(self, path):
        text = path.read_text()
        lines = []
        may = lambda n: n in self.own or n in self.stock
        for line in text.split("\n"):
            if line.startswith(("old:", "new:")):
                line = line[:4] + between(re.compile(r'"[^"]*"'), line[4:], lambda m: m[0], lambda t, _: self.words(t, may, True))
            elif line.startswith("#"):
                line = self.prose(line, set())
            lines.append(line)
        self.write(path, text, "\n".join(lines))

    def page(self, path):
        text = path.read_text()
        fence = re.compile(r"(?ms)^( *```)([^\n]*)\n.*?^\1 *$")
        block = lambda m: m[0] if m[2].strip() not in ("antt", "agda", "rattle", "rust", "") else self.words(m[0], lambda n: n in self.own or n in self.stock, True)
        self.write(path, text, between(fence, text, block, lambda t, _: SPAN.sub(lambda m: self.span(m[0]), t)))

    def run(self):
        before = sorted(self.names_nothing())
        for module in self.modules.values():
            self.antt(module)
        for path, text in self.rust:
            self.rt(path, text)
        for path in sorted(Path("crates").glob("*/must-fail/*.edit")):
            self.edit(path)
        for path in [Path("README.md"), *sorted(Path("docs").glob("*.md")), Path("second/README.md")]:
            if str(path) not in LEFT:
                self.page(path)
        return before


def main():
    if not Path("crates").is_dir():
        return print("respell: run this at the repository's top") or 1
    work = Respelling()
    before = work.run()
    again = Respelling()
    after = sorted(again.names_nothing())
    for line in work.clashes:
        print("together:", line)
    for line in sorted(work.unsure):
        print("unsure:", line)
    for kind, lines in (("before", before), ("after", after)):
        for line in lines:
            print(f"names nothing {kind}:", line)
    if "-v" in sys.argv:
        for name, n in sorted(work.pages.items()):
            print("page:", name, turned(name), n)
    used = sum(1 for n in OTHERWISE if n in work.found)
    print(f"respell: {len(work.found)} names in code ({sum(work.found.values())} words), {len(work.pages)} in edits, pages and comments, {len(work.written)} files written;"
          f" {used} named otherwise, {len(work.clashes)} fall together, imports that name nothing: {len(before)} before, {len(after)} after")
    return 1 if work.clashes or len(after) > len(before) else 0


if __name__ == "__main__":
    sys.exit(main())
