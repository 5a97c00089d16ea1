"""What the pages name is there. A name is text in backquotes; by its form it is
  a path            from the root, below docs/, crates/ or a crate, or File.antt beside the path before it; CRATE, NAME and F stand for any
  Name .field       of a record, of what is of that record, or of what abbreviates it; '.field' is of the Name before it
  crate::function   of the crate's code, and so module::function and Type::function
  File.name         declared in File.antt; or a struct's field
  NAME_, NAME_*     the beginning of a plain name
  a plain name      a crate, a wrong edit, a folder, or declared in a crate, the header or the crate for Rust
Other text, as a record, a line, a number or a command, is no name.
Behind names a parenthesis says where they are declared: (crate), (crate File), (File), (crate/proofs/File), or several; so does the end of one, and 'in'.
Each wrong edit is named, with its crate or in the row of a function of its crate, and what it replaces stands once. Each crate is named, and each public
function. No spec stands on a proof. believed.py compares the list of what a reader has to believe.
"""
import collections
import glob
import os
import re

PAGES = ["README.md"] + ["docs/%s.md" % page for page in "RECORDS PROGRAM LIBRARY LISTS BELIEVED DEFINITIONS CLAIMS DECISIONS HOUSE".split()]
# Names of tools, of C and of the languages.
FOREIGN = "rt cargo cc valgrind python3 memcpy memmove memset yield_now get_or requires ensures switch unsafe".split()
WORD = r"[^\s(){}:;,.`|]+"
NAMES = r"(?:`[^`]*`(?:, | and )?)+"
PLACE = r"[a-z0-9_]+(?: [A-Z]\w*|/\w+/\w+(?:\.antt)?)"

edits = glob.glob("crates/*/must-fail/*.edit")
declared = collections.defaultdict(set)  # a name: the files that declare it
items = collections.defaultdict(set)  # a file of code: its functions, types, constants, modules and fields
members = collections.defaultdict(set)  # a record, a struct or an enum: its fields
heads = collections.defaultdict(set)  # a name: the first word of its type, and of what it abbreviates
told = collections.Counter()  # what holds, and what does not


def tell(holds, what):
    told[bool(holds)] += 1
    if not holds:
        print("FAILED", what)


def files(pattern):
    return glob.glob(pattern, recursive=True)


def text_of(file):
    with open(file) as opened:
        return opened.read()


def split_names(names):
    return re.findall(r"`([^`]*)`", names)


crates = re.findall(r"^([a-z0-9_]+)(?: [^:\n]*)?:", text_of("crates.txt"), re.M)


# ---- What is declared


def read_antt(file):
    record, depth = None, 0
    for line in text_of(file).splitlines():
        if re.match(r"\s*(--|$)", line):
            continue
        at = len(line) - len(line.lstrip())
        if at <= depth:
            record = None
        if found := re.match(rf"\s*(?:pub )?(?:record|data) ({WORD})", line):
            record, depth = found[1], at
            declared[record].add(file)
        elif found := re.match(rf"\s*(?:(?:abbrev|unfoldable|pub) )*((?:{WORD} )+)(?:\{{[^}}]*\}} )*:(?: (\S+))?", line):
            for name in found[1].split():
                declared[name].add(file)
                heads[name].add(found[2])
                if record:
                    members[record].add(name)
        elif found := re.match(rf"({WORD}) [^=]*= ({WORD})", line):
            heads[found[1]].add(found[2])


# Of the header and the crate for Rust every word: in what a compiler takes each is declared.
def read_code(file):
    text = re.sub(r"//.*|/\*(?s:.*?)\*/", "", text_of(file))
    field = r"(\w+)(?:\[\w+\])?[,;]" if file.endswith(".h") else r"^\s*(?:pub )?(\w+)"
    items[file].update(re.findall(r"\b(?:fn|struct|enum|const|type|mod|impl|impl<[^>]*>) (\w+)", text))
    for name, body in re.findall(r"\b(?:struct|enum) (\w+) \{(.*?)\n\}", text, re.S):
        members[name].update(re.findall(field, body, re.M))
        items[file].update(members[name])
    for name in items[file].union(re.findall(r"\w+(?=: )" if file.endswith(".rt") else r"\w+", text)):
        declared[name].add(file)


# ---- Names


def is_path(name, beside):
    bases = ["", "docs/", "crates/", "crates/*/", "crates/*/*/"] if "/" in name or not name.endswith(".antt") else [beside]
    pattern = re.sub(r"\b(CRATE|NAME|F)\b", "*", name)
    made = re.match(r"crates/(\w+)/out\b", name)
    return made and made[1] in crates or any(files(base + pattern) for base in bases)


def is_field(name, field, seen=()):
    return field in members[name] or any(is_field(head, field, (*seen, name)) for head in heads[name] - {None, *seen})


def is_item(scope, name):
    return any(name in items[file] and all(f"crates/{part}/" in file or f"/{part}." in file or part in items[file] for part in scope) for file in items)


def is_plain(name):
    return name in declared or name in crates or name in FOREIGN or os.path.isdir(name) or files(f"crates/*/must-fail/{name}.edit")


def check_names(page, text):
    record, beside = "", ""
    for name in split_names(text):
        if found := re.fullmatch(r"(\S+ )?\.([^\s.]+)", name):
            record = (found[1] or record).strip()
            holds = is_field(record, found[2])
        elif re.search(r"[^\w.:/?'*-]|^[\W\d]", name):
            continue
        elif "/" in name or re.search(r"\.(antt|rt|md|h|txt)$", name):
            holds = is_path(name, beside)
            beside = f"crates/{os.path.dirname(name)}/" if "/" in name else beside
        elif "::" in name:
            *scope, last = name.split("::")
            holds = is_item(scope, last)
        elif "." in name:
            file, last = name.rsplit(".", 1)
            holds = last in members[file] or any(f"/{file}.antt" in place for place in declared[last])
        elif found := re.fullmatch(r"(\w+_)\*?", name):
            holds = any(other.startswith(found[1]) for other in declared)
        else:
            holds = is_plain(name)
        tell(holds, f"{page} names what is not there: {name}")


def files_of(place):
    crate = "*"
    for part in place.split(", "):
        if found := re.fullmatch(r"(\w+/\w+/\w+)(?:\.antt)?", part):
            yield f"crates/{found[1]}.antt"
        elif found := re.fullmatch(r"([a-z0-9_]+)?\b ?([A-Z]\w*)?", part):
            crate = found[1] or crate
            yield f"crates/{crate}/*/{found[2]}.antt" if found[2] else f"crates/{crate}/**/*.*"


def check_places(page, text):
    for names, *places in re.findall(rf"({NAMES})(?: \(([\w/, ]+)\)|({PLACE})\)| in `?({PLACE}))", text):
        place = "".join(places)
        there = {file for pattern in files_of(place) for file in files(pattern)}
        for name in split_names(names):
            tell(all(declared[part] & there for part in re.findall(r"[^\s.]+", name)), f"{page} names what is not in {place}: {name}")


# ---- Wrong edits


# Those of the crate before them, or else of this one.
def edits_in(text, crate):
    for other, names in re.findall(rf"(?:(\w+) )?({NAMES})", text):
        for label in split_names(names):
            yield f"crates/{other if other in crates else crate}/must-fail/{label}.edit"


# In a column of edits each name is an edit.
def check_edits(page, text):
    named, column = set(), False
    for line in text.splitlines():
        function = re.match(r"\| `(\w+)::", line)
        crate = function[1] if function else ""
        last = line.split("|")[-2].strip() if line.startswith("|") else ""
        named.update(edits_in(line, crate))
        for edit in edits_in(last, crate) if column else []:
            tell(edit in edits, f"{page} names what is not there: {edit}")
        column = line.startswith("|") and (column or last in ["edit", "edits"])
    for edit in edits:
        tell(edit in named, f"{page} does not name {edit}")


def check_once(edit):
    file = ""
    for line in text_of(edit).splitlines():
        if line.startswith("file: "):
            file = edit.split("must-fail/")[0] + line[6:]
        if line.startswith("old: "):
            tell(os.path.isfile(file) and text_of(file).count(line[5:]) == 1, f"{edit}: not once in {file}: {line[5:]}")


# ---- Crates


# What a lib.rt hands on of a module.
def handed_on(text, module):
    return re.findall(r"\w+", " ".join(re.findall(rf"^pub use {module}::([^;]*);", text, re.M)))


# What a library offers: what its lib.rt declares or hands on, with the methods of its types, and what its public modules declare.
def public_functions(crate):
    text = text_of(f"crates/{crate}/src/lib.rt")
    for name, body in re.findall(r"^impl(?:<[^>]*>)? (\w+)(?:<[^>]*>)? \{\n(.*?)^\}", text, re.S | re.M):
        for method in re.findall(r"^    pub fn (\w+)", body, re.M):
            yield f"{crate}::{name}::{method}"
    for name in re.findall(r'^pub (?:extern "C" )?fn (\w+)', text, re.M):
        yield f"{crate}::{name}"
    for module in re.findall(r"^(?:pub )?mod (\w+);", text, re.M):
        for name in re.findall(r"^pub fn (\w+)", text_of(f"crates/{crate}/src/{module}.rt"), re.M):
            if f"pub mod {module};" in text:
                yield f"{crate}::{module}::{name}"
            elif name in handed_on(text, module):
                yield f"{crate}::{name}"


# From what a library makes what: a number is told by the row of what it numbers.
def conversions(crate):
    for file in files(f"crates/{crate}/src/*.rt"):
        yield from re.findall(r"^impl From<(\w+)> for (\w+) \{", text_of(file), re.M)


def check_crate(crate, readme, claims):
    tell(f"`{crate}`" in readme, f"README.md does not name {crate}")
    if os.path.isfile(f"crates/{crate}/src/lib.rt"):
        for name in public_functions(crate):
            tell(f"`{name}`" in claims.split("## Public functions")[1], f"the public functions of docs/CLAIMS.md lack {name}")
        for given, made in conversions(crate):
            rows = claims.split("## Public functions")[1].splitlines()
            named = [row for row in rows if f"`{given}`" in row and (f"`{made}`" in row or re.fullmatch(r"u\d+", made))]
            tell(named, f"the public functions of docs/CLAIMS.md lack {made} from {given}")
    for file in files(f"crates/{crate}/specs/**/*.antt"):
        taken = [use for use, of in re.findall(r"^((?:pub )?use Rattle\.(\w+)\.proofs\b.*)", text_of(file), re.M) if of in crates]
        tell(not taken, f"{file} stands on a proof: {'; '.join(taken)}")


# A page without its code, a paragraph or a row of a table to a line.
def read_page(page):
    text = re.sub(r"```(?s:.*?)```|^    .*", "", text_of(page), flags=re.M)
    return re.sub(r"\n *(?=[^|#\n -])", " ", text)


for file in files("crates/*/specs/**/*.antt") + files("crates/*/proofs/**/*.antt"):
    read_antt(file)
for file in files("crates/*/src/**/*.rt") + files("crates/rack/include/*.h") + files("crates/rack/rust/**/*.rs"):
    read_code(file)
pages = {page: read_page(page) for page in PAGES}
for page, text in pages.items():
    check_names(page, text)
    check_places(page, text)
check_edits("docs/CLAIMS.md", pages["docs/CLAIMS.md"])
for edit in edits:
    check_once(edit)
for crate in crates:
    check_crate(crate, pages["README.md"], pages["docs/CLAIMS.md"])
print(f"{told[True]} passed, {told[False]} failed")
