"""Writes a sample (docs/FORMATS.md, "Samples") for bench/sample.sh, and clauses that can be satisfied exactly where some permitted choice breaks a link.

Run: sample_files.py SIZE TIMES [broken]

In the current folder are then sample.xml, sample.adoc and links.cnf. Each line with a link stands TIMES times. In a broken sample the last link's second
anchor is missing.
"""
import sys

SEED = 1


class Item:
    """An extension with its struct: its number, and those of its parents, of which a first has none and each third two."""

    def __init__(self, number, parents):
        self.number = number
        self.parents = parents
        self.option = f"VK_GEN_e{number}"
        self.struct = f"VkGen{number}"


def items(size):
    state = SEED

    def draw(bound):
        nonlocal state
        state = (state * 6364136223846793005 + 1442695040888963407) % 2**64
        return (state // 2**33) % bound

    for number in range(1, size + 1):
        count = 0 if number == 1 else 2 if number % 3 == 0 else 1
        yield Item(number, [1 + draw(number - 1) for _ in range(count)])


def registry(sample):
    yield from ("<registry>", "<types>", '<type name="int"/>')
    for item in sample:
        pointer = f"<member>const <type>VkGen{item.parents[0]}</type>* <name>b</name></member>" if item.parents else ""
        yield f'<type category="struct" name="{item.struct}"><member><type>int</type> <name>a</name></member>{pointer}</type>'
    yield from ("</types>", '<feature api="vulkan" name="VK_VERSION_1_0" number="1.0"></feature>', "<extensions>")
    for item in sample:
        depends = ",".join(f"VK_GEN_e{parent}" for parent in item.parents) or "VK_VERSION_1_0"
        require = f'<require><type name="{item.struct}"/></require>'
        yield f'<extension name="{item.option}" number="{item.number}" supported="vulkan" depends="{depends}">{require}</extension>'
    yield from ("</extensions>", "</registry>")


def within(word, option, lines):
    return [f"{word}::{option}[]", *lines, f"endif::{option}[]"]


def part(item, times, broken):
    lines = [f"[[gen-{item.number}]]", f"include::{{generated}}/api/structs/{item.struct}.adoc[]"]
    if item.parents:
        links = [f"See <<gen-{item.parents[0]}>> and slink:VkGen{item.parents[0]}."] * times
        lines += within("ifdef", f"VK_GEN_e{item.parents[0]}", links) if len(item.parents) == 2 else links
    anchor = [f"[[alt-{item.number}]]"]
    yield from within("ifdef", item.option, lines)
    yield from within("ifdef", item.option, anchor)
    yield from within("ifndef", item.option, [] if broken else anchor)
    yield from [f"See <<alt-{item.number}>>."] * times


class Clauses:
    """Clauses over numbered variables, in which a literal that stands for others has a variable of its own (Tseitin's form)."""

    def __init__(self):
        self.variables = 0
        self.clauses = []

    def variable(self):
        self.variables += 1
        return self.variables

    def any_of(self, literals):
        if len(literals) == 1:
            return literals[0]
        head = self.variable()
        self.clauses += [[head, -literal] for literal in literals]
        self.clauses.append([-head, *literals])
        return head

    def all_of(self, literals):
        return -self.any_of([-literal for literal in literals])

    def exactly_one(self, literals):
        none, one = self.all_of([-literals[0]]), literals[0]
        for literal in literals[1:]:
            one = self.any_of([self.all_of([one, -literal]), self.all_of([none, literal])])
            none = self.all_of([none, -literal])
        return one

    def write(self, file):
        file.write(f"p cnf {self.variables} {len(self.clauses)}\n")
        file.writelines(" ".join(map(str, clause)) + " 0\n" for clause in self.clauses)


def links(sample, times, broken):
    """The clauses of the permitted choices, and one that says that some link breaks."""
    clauses = Clauses()
    feature = clauses.variable()
    chosen = {item.number: clauses.variable() for item in sample}
    clauses.clauses.append([feature])
    clauses.clauses += [[-chosen[item.number], *([chosen[parent] for parent in item.parents] or [feature])] for item in sample]
    # A struct is declared where its extension is chosen, or another struct that names it is declared.
    naming = {item.number: [] for item in sample}
    for item in reversed(sample):
        declared = clauses.any_of([chosen[item.number], *naming[item.number]])
        naming[item.number] = declared
        if item.parents:
            naming[item.parents[0]].append(declared)
    anchored = {}
    for item in sample:
        option = chosen[item.number]
        anchored["gen", item.number] = clauses.exactly_one([option])
        anchored["page", item.number] = clauses.exactly_one([clauses.all_of([option, naming[item.number]])])
        anchored["alt", item.number] = clauses.exactly_one([option] if broken and item is sample[-1] else [option, -option])
    breaks = []
    for item in sample:
        for _ in range(times):
            if item.parents:
                stands = [chosen[item.number]] + [chosen[item.parents[0]]] * (len(item.parents) - 1)
                breaks += [clauses.all_of([*stands, -anchored[kind, item.parents[0]]]) for kind in ("gen", "page")]
            breaks.append(-anchored["alt", item.number])
    clauses.clauses.append(breaks)
    return clauses


def main():
    size, times, broken = int(sys.argv[1]), int(sys.argv[2]), sys.argv[3:] == ["broken"]
    sample = list(items(size))
    with open("sample.xml", "w") as file:
        file.writelines(line + "\n" for line in registry(sample))
    with open("sample.adoc", "w") as file:
        file.writelines(line + "\n" for item in sample for line in part(item, times, broken and item is sample[-1]))
    with open("links.cnf", "w") as file:
        links(sample, times, broken).write(file)


main()
