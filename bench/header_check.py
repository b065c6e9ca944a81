"""Says in what a header that was written differs from one of the Khronos Group, of what both declare: header_check.py OWN GIVEN."""
import re
import sys

own, given = (open(path).read() for path in sys.argv[1:])


def squeezed(text):
    return re.sub(r"\s*\*\s*", "* ", re.sub(r"\s+", " ", text)).strip()


def enums(text):
    found = {}
    for name, body in re.findall(r"typedef enum (\w+) \{\n(.*?)\} \w+;", text, re.S):
        found[name] = re.findall(r"(\w+) = (-?\w+),?\n", body)
    return found


def numbers(found):
    """The value of each name, through its aliases."""
    said = {name: value for values in found.values() for name, value in values}

    def number(value):
        while value in said:
            value = said[value]
        return int(value, 0)

    return {name: number(value) for name, value in said.items()}


def structs(text):
    return {name: squeezed(body) for name, body in re.findall(r"typedef (?:struct|union) (\w+) \{\n(.*?)\} \w+;", text, re.S)}


def functions(text):
    found = re.findall(r"typedef ([^\n]*?) \(VKAPI_PTR \*(\w+)\)\(([^;]*)\);", text)
    return {name: (squeezed(result), squeezed(parameters)) for result, name, parameters in found}


def constants(text):
    found = re.findall(r"static const (\w+) (\w+) = (\w+?)(?:ULL)?;", text)
    return {name: (of, int(value, 0)) for of, name, value in found}


def compare(what, left, right):
    both = [name for name in right if name in left]
    differ = [name for name in both if left[name] != right[name]]
    lack = [name for name in right if name not in left]
    print("%s: %d of both, %d differ, %d are missing %s" % (what, len(both), len(differ), len(lack), " ".join((differ + lack)[:5])))


left, right = enums(own), enums(given)
compare("values", numbers(left), numbers(right))
compare("names in the order of their types", {name: [value for value, _ in values if value in dict(right.get(name, ()))] for name, values in left.items()},
        {name: [value for value, _ in values] for name, values in right.items()})
compare("flags of 64 bits", constants(own), constants(given))
compare("structs and unions", structs(own), structs(given))
compare("pointers to functions", functions(own), functions(given))
