"""Parts a C file that wasm2c made, so that its functions can be compiled side by side."""

import re

# a function of the module, from its first line to its last
FUNCTION = re.compile(r"^static ([^\n]* \**w2c_\w+\([^;{]*\) \{\n.*?^\}\n)", re.MULTILINE | re.DOTALL)
# what stands before the functions: helpers, which each part has, and then what is of the module and there once
MODULE = "static bool s_module_initialized = false;\n"
DECLARATION = re.compile(r"^static ([^\n]* \**w2c_\w+\([^\n]*\);\n)", re.MULTILINE)
TYPES = re.compile(r"^static (u32 func_types\[\d+\];\n)", re.MULTILINE)


def parted(source, most):
    """The texts of C files that are the same together; each has functions of up to so many bytes, or a single one."""
    helpers, _, rest = source.partition(MODULE)
    functions = FUNCTION.findall(rest)
    declarations = "".join("extern " + each for each in [*TYPES.findall(rest), *DECLARATION.findall(rest)])
    once = TYPES.sub(r"\1", DECLARATION.sub(r"\1", FUNCTION.sub("", rest)))
    parts, size = [], most
    for function in functions:
        if size + len(function) > most:
            parts.append([])
            size = 0
        parts[-1].append(function)
        size += len(function)
    return [helpers + MODULE + once] + [helpers + declarations + "".join(part) for part in parts]
