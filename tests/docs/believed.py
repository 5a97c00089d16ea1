"""The list of docs/BELIEVED.md is what its roots import, and each file stands behind those that it imports. Below a heading are the files that its roots need
and those above do not."""
import os
import re
import sys

ROOTS = {
    "The claim": ["claim/specs/Claim.antt"],
    "The contract of one record": ["records/specs/Lent.antt"],
    "A call that is about no run": ["bicycle_codes/specs/Laws.antt", "bicycle_codes/specs/Table.antt"],
    "The library, in plain numbers": ["rack/specs/Candidates.antt", "rack/specs/Runs.antt"],
}
told = {True: 0, False: 0}


def tell(holds, what):
    told[holds] += 1
    if not holds:
        print("FAILED", what)


# A spec imports specs of its crate and of others; a type that it declares stands in the crate's code. The kit's are not the project's.
def imports(file):
    for line in open(f"crates/{file}"):
        found = re.match(r"(?:pub )?use Rattle\.(\w+)\.specs\.([\w.-]+?)(?:\.\{| as |$)", line)
        if found and os.path.isdir(f"crates/{found[1]}"):
            parts = found[2].split(".")
            if parts[0] != "declared":
                yield f"{found[1]}/specs/{parts[0]}.antt"
            else:
                module = parts[1] if parts[1].islower() else "lib"
                yield f"{found[1]}/src/{module}.rt"


def reach(file, seen):
    if file not in seen:
        seen.append(file)
        for other in imports(file) if file.endswith(".antt") else []:
            reach(other, seen)


def compare(page):
    text = open(page).read()
    listed, needed = [], []
    for heading, roots in ROOTS.items():
        part = text.split(f"## {heading}\n")[1].split("\n## ")[0]
        listed += re.findall(r"^\| `([^`]+)` \|", part, re.M)
        for root in roots:
            reach(root, needed)
        for file in sorted(set(listed) ^ set(needed)):
            tell(False, f"{page}, {heading}: {'not listed' if file in needed else 'listed and not needed'}: {file}")
    for at, file in enumerate(listed):
        below = [other for other in imports(file) if other in listed[at + 1:]] if file.endswith(".antt") else []
        tell(not below, f"{page}: {file} stands before what it imports: {below}")
    tell(len(listed) == len(set(listed)), f"{page} lists a file twice")


compare(sys.argv[1] if len(sys.argv) > 1 else "docs/BELIEVED.md")
print(f"{told[True]} passed, {told[False]} failed")
