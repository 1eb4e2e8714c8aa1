"""The crates' statements: what stands under specs/ and proofs/, the types and contracts of src/, and which of them a text names.

A key is (crate, part, file, name). The parts are `specs`, `proofs`, `src` (functions, by their contracts) and `declared` (structs and enums of the code, as
specs/ and proofs/ name them). tools/believe and tools/page.py read the crates through this.
"""
import glob
import os
import re

TOP = os.path.join(os.path.dirname(os.path.dirname(os.path.abspath(__file__))), "crates")

# 01's sections, in its order, and what of the crates says each: a crate, or a file of it. What is named nowhere here belongs to 02.
ORDER = [
    ("Numbers, lists, limits", "limits slices laws ieee float_error"),
    ("Sign table", "tables sign_table"),
    ("Objective, floor, decoding", "tables/Cost tables/Bound float_bound table_calls"),
    ("Rounding and search", "rounding sign_words sign_calls local_search sign_search sdp_local_search finalize"),
    ("Roots, rows, rules", "ieee/lib ieee/Sqrt ieee/Nearest ieee/Unique ieee/Special ieee/Scale tables/Rank run_limits factor prepared_table row_gradient coordinate_sweep step_rules initialize"),
    ("Run", "maxcut_oracle run_record run_sweep run_contract sdp_solver factor_calls"),
    ("Job and answer records", "job_reader job_record answer_record job_encoding record_call wagonplan exports"),
    ("Reduced", "reduced"),
    ("Numbers from the input and from the state", "refusal tables/Check run_record/Numbers run_record/Lengths run_record/Conditions job_record/Number job_record/Versions"),
    ("Further change requests (02)", "pinned pinned_demand block_search ranged_finish exhaustive several_runs"),
]
PLACES = {place: k for k, (_, places) in enumerate(ORDER) for place in places.split()}

SIGNATURE = re.compile(r"^(?:(?:abbrev|unfoldable|pub|private) )*([^\s(){}]+) :(?: |$)")
TYPED = re.compile(r"^(?:(?:abbrev|unfoldable|pub|private) )*(?:record|data) ([^\s(){}]+)")
MODULE = re.compile(r"^(?:pub )?module ")
PASSED = re.compile(r"^(?:(?:unfoldable|pub|ghost) )*(?:use|mod|infix[lr]?)\b")
USE = re.compile(r"^(?:(?:unfoldable|pub|ghost) )*use ([^\s{;]+?)(?:\.\{([^}]*)\})?(?: as ([^\s;]+))?;?[ \t]*$", re.M)
OURS = re.compile(rf"Rattle\.({'|'.join(sorted(os.listdir(TOP)))})\.(specs|proofs)\.(.+)")
CLAUSE = re.compile(r"(?:requires|ensures)(?: ?\*)?(?: \w+)? \{$")
BINDER = re.compile(r"[({]([^(){}:]+) : |λ ([^.()]+)\.")
WORD = re.compile(r"[^\s(){}\[\],;.|«»]+(?:\.[^\s(){}\[\],;.|«»]+)*")


class Text:
    """One statement: its comment, the modules around it with their parameters, what it says, and all of its text."""

    def __init__(self, note, modules, says, whole, inner=()):
        self.note, self.modules, self.says, self.whole, self.inner = note, modules, says, whole, inner


def indent(line):
    return len(line) - len(line.lstrip())


def shifted(lines):
    """Lines without the indentation that all of them have."""
    least = min((indent(line) for line in lines if line.strip()), default=0)
    return "\n".join(line[least:].rstrip() for line in lines).rstrip()


def definitions(text):
    """(name, Text) of each definition of an .antt file."""
    lines, modules, note, at = text.split("\n"), [], [], 0
    while at < len(lines):
        line, bare = lines[at], lines[at].strip()
        if not bare:
            note, at = [], at + 1
            continue
        deep = indent(line)
        while modules and deep <= modules[-1][0]:
            modules.pop()
        if bare.startswith("--"):
            note.append(bare)
            at += 1
            continue
        end = at + 1
        if MODULE.match(bare):
            while not lines[end - 1].rstrip().endswith("where"):
                end += 1
            modules.append((deep, note, shifted(lines[at:end])))
            note, at = [], end
            continue
        while end < len(lines) and lines[end].strip() and indent(lines[end]) > deep:
            end += 1
        typed, signed = TYPED.match(bare), SIGNATURE.match(bare)
        if PASSED.match(bare):
            at = end
            continue
        if typed or signed:
            says = end
            while end < len(lines):
                following = next((k for k in range(end, len(lines)) if lines[k].strip()), len(lines))
                if following == len(lines):
                    break
                is_inner = indent(lines[following]) > deep
                is_clause = following == end and indent(lines[end]) == deep and not typed and not any(
                    p.match(lines[end].strip()) for p in (SIGNATURE, TYPED, MODULE, PASSED)) and not lines[end].strip().startswith("--")
                if not is_inner and not is_clause:
                    break
                end = following + 1
            around = [(shifted(n), header) for _, n, header in modules]
            whole = shifted(lines[at:end])
            inner = []
            if typed:
                base = min((indent(x) for x in lines[at + 1:end] if x.strip() and x.rstrip().endswith("where") is False), default=0)
                inner = [m[1] for x in lines[at + 1:end] if indent(x) == base for m in [SIGNATURE.match(x.strip())] if m]
            yield (typed or signed)[1], Text("\n".join(note), around, whole if typed else shifted(lines[at:says]), whole, inner)
        note, at = [], end


def functions(text):
    """(name, Text) of each function of an .rt file, by signature and contract; then of its types."""
    lines, note = text.split("\n"), []
    at = 0
    while at < len(lines):
        bare = lines[at].strip()
        if bare.startswith("//"):
            note.append(bare)
            at += 1
            continue
        if bare.startswith("#["):
            while not lines[at].rstrip().endswith("]"):
                at += 1
            at += 1
            continue
        function = re.match(r'(?:pub )?(?:extern "C" )?fn (\w+)', bare)
        typed = re.match(r"(?:pub )?(?:struct|enum) (\w+)", bare)
        end = at + 1
        if function:
            while end < len(lines) and lines[end - 1].strip() != "{" and not (lines[end - 1].rstrip().endswith(" {") and not CLAUSE.search(lines[end - 1].rstrip())):
                end += 1
            yield "src", function[1], Text("\n".join(note), [], shifted(lines[at:end - 1]), shifted(lines[at:end - 1]))
            at = end
        elif typed:
            while end < len(lines) and lines[end - 1].rstrip() != "}":
                end += 1
            yield "declared", typed[1], Text("\n".join(note), [], shifted(lines[at:end]), shifted(lines[at:end]))
            at = end
        else:
            at += 1
        note = []


class Crates:
    def __init__(self):
        self.text, self.names, self.aliases, self.kit, self.inner = {}, {}, {}, {}, {}
        for path in sorted(glob.glob(os.path.join(TOP, "*", "*", "**", "*.*t"), recursive=True)):
            crate, part, inner = os.path.relpath(path, TOP).split(os.sep, 2)
            if part in ("specs", "proofs") and path.endswith(".antt") or part == "src" and path.endswith(".rt"):
                place = (crate, part, os.path.splitext(inner)[0].replace(os.sep, "."))
                with open(path, encoding="utf-8") as file:
                    self.read(place, file.read())
        # the parts of names like ◌if◌
        self.mixed = {}
        for place, name in [*((place, name) for place, names in self.names.items() for name in names), *((key[:3], key[3]) for key in self.text)]:
            if "◌" in name and place[1] != "src":
                self.mixed.setdefault(place, {}).update({part: name for part in name.split("◌") if part})

    def read(self, place, text):
        names, aliases, kit = {}, {}, {}
        for path, listed, alias in USE.findall(text):
            if "::" in path:
                continue
            ours = OURS.match(path)
            for name in filter(None, (n.strip() for n in listed.replace("\n", " ").split(","))):
                first, _, other = name.partition(" as ")
                if ours:
                    names[other or first] = (ours[1], ours[2], ours[3], first)
                else:
                    kit[other or first] = f"{path}.{first}"
            if not listed:
                (aliases if ours else kit)[alias or path.rpartition(".")[2]] = (ours[1], ours[2], ours[3]) if ours else path
        for module, listed in re.findall(r"^use (\w+)::([^;]+);", text, re.M):
            for name in re.findall(r"\w+(?=[\s,}]|$)", listed):
                names.setdefault(name, (place[0] if module == "crate" else module, "specs", f"declared.{name}", name))
        self.names[place], self.aliases[place], self.kit[place] = names, aliases, kit
        found = functions(text) if place[1] == "src" else ((place[1], *pair) for pair in definitions(text))
        for part, name, what in found:
            key = (place[0], part, place[2] if part != "declared" else "", name)
            self.text.setdefault(key, what)
            if part == "declared":
                self.inner[key] = place
            for case in what.inner:
                self.inner.setdefault((*place, case), key)

    def find(self, place, name):
        """The definition that `name` is in the file `place`, through files that pass it on; a case of a data type is the type."""
        for _ in range(8):
            crate, part, file = place
            if file.startswith("declared."):
                own = (crate, "declared", "", [x for x in file.split(".") if x != "TheVariants"][-1])
                return own if own in self.text else None
            if (*place, name) in self.text:
                return (*place, name)
            own = (crate, "declared", "", name)
            if part == "src" and own in self.text:
                return own
            through = self.names.get(place, {}).get(name)
            if through is None:
                of_type = self.inner.get((*place, name))
                return of_type if of_type and of_type[1] != "declared" and re.match(r".*\bdata\b", self.text[of_type].whole.split("\n")[0]) else None
            place, name = through[:3], through[3]
        return None

    def words(self, place, text):
        """(start, end, key or None) of each word of a text that could be a name; a word behind a dot and a space is a field."""
        mixed = self.mixed.get(place, {})
        for found in WORD.finditer(text):
            if found.start() and text[found.start() - 1] == ".":
                continue
            word, dot, last = found[0].partition(".")
            if dot and word in self.aliases.get(place, {}):
                yield found.start(), found.end(), self.find(self.aliases[place][word], last)
                continue
            at = found.start()
            for part in found[0].split("."):
                yield at, at + len(part), self.find(place, part) or (self.find(place, mixed[part]) if part in mixed else None)
                at += len(part) + 1

    def shown(self, key):
        """What of a text says it: of a theorem its statement, with the modules' parameters; of a function its contract; else all of it."""
        what = self.text[key]
        return what.says if key[1] in ("proofs", "src") else what.whole

    def place(self, key):
        return self.inner[key] if key[1] == "declared" else key[:3]

    def below(self, key):
        what = self.text[key]
        text = "\n".join([*(header for _, header in what.modules), self.shown(key)])
        text = re.sub(r"(--|//).*", "", text)
        # in a theorem's statement its own variables are no names of the file's; in definitions a word too many does no harm
        bound = {name for pair in BINDER.findall(text) for part in pair for name in part.split()} if key[1] == "proofs" else set()
        for start, end, found in self.words(self.place(key), text):
            if found and found != key and text[start:end] not in bound:
                yield found

    def reached(self, keys):
        """Every definition that the keys name, themselves among them, those first that stand on nothing."""
        done, path = [], set()

        def visit(key):
            if key in path:
                return
            path.add(key)
            for found in self.below(key):
                visit(found)
            done.append(key)

        for key in keys:
            visit(key)
        return done

    def kit_names(self, keys):
        """What these texts name of the kit's libraries."""
        found = set()
        for key in keys:
            place, what = self.place(key), self.text[key]
            text = re.sub(r"(--|//).*", "", "\n".join([*(header for _, header in what.modules), self.shown(key)]))
            kit = self.kit.get(place, {})
            parts = {part: name for name in kit if "◌" in name for part in name.split("◌") if part}
            for word in {w for m in WORD.finditer(text) for w in m[0].split(".")}:
                if word in kit or word in parts:
                    found.add(kit.get(word) or kit[parts[word]])
        return sorted(found)

    def section(self, key):
        return PLACES.get(f"{key[0]}/{key[2]}", PLACES.get(key[0], len(ORDER) - 1))

    def in_order(self, keys):
        """By 01's sections; within one those first that stand on nothing."""
        return sorted(keys, key=self.section)

    def named(self, name):
        """The statements of this name, NAME, CRATE.NAME or CRATE/FILE.NAME: definitions, else functions, else theorems."""
        where, _, last = name.rpartition(".")
        crate, _, file = where.partition("/")
        found = [key for key in self.text if key[3] == last and crate in ("", key[0]) and file.replace("/", ".") in ("", key[2])]
        for part in ("specs", "declared", "src", "proofs"):
            chosen = [key for key in found if key[1] == part]
            public = [key for key in chosen if re.search(r"\bpub\b", self.text[key].whole.split("\n")[0])]
            if chosen:
                return public or chosen
        return []

    def path(self, key):
        if key[1] == "declared":
            place = self.inner[key]
            return f"crates/{key[0]}/src/{place[2].replace('.', '/')}.rt"
        return f"crates/{key[0]}/{key[1]}/{key[2].replace('.', '/')}.{'rt' if key[1] == 'src' else 'antt'}"
