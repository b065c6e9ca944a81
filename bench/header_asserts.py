"""Writes a program in C that prints asserts of values and sizes of a published header: header_asserts.py OWN GIVEN: of names that both have."""
import re
import sys

own, given = (open(path).read() for path in sys.argv[1:])


def spread(pattern, most):
    names = [name for name in dict.fromkeys(re.findall(pattern, given)) if re.search(r"\b%s\b" % name, own)]
    return names[::max(1, len(names) // most)]


print("#include <vulkan/vk_platform.h>\n#include <vulkan/vulkan_core.h>\n#include <stdio.h>\nint main(void) {")
for name in spread(r"\n    (VK_\w+) = ", 150):
    print('printf("ASSERT(%s == (%%lld));\\n", (long long)%s);' % (name, name))
for name in spread(r"typedef (?:struct|union) (\w+) \{", 100):
    print('printf("ASSERT(sizeof(%s) == %%zu);\\n", sizeof(%s));' % (name, name))
print("}")
