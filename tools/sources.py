"""Finds the functions of a Rattle source file by its layout, which is that of `rt fmt`."""
import os
import re

HEAD = re.compile(r"( *)(?:pub(?:\([a-z]+\))? )?(?:unsafe )?(?:const )?(?:extern \"C\" )?fn (\w+)")
CYCLE = re.compile(r" *#\[cycle\((\w+)\)\]")
STUB = "unreachable!()"


class Function:
    """A function with a body: the lines of its head and body, counted from 0, and what the prover calls it."""

    def __init__(self, name, within, lines):
        self.name, self.first, self.begin, self.last = name, *lines
        self.within, self.cycle, self.attributes, self.is_const = within, None, [], False
        # The first line of the comments and attributes above it. The prover names the place of an attribute.
        self.start = self.first

    @property
    def path(self):
        """The function's path below its crate."""
        return "::".join([*self.within, self.name])

    @property
    def folder(self):
        """The folder of its proof, below proofs/."""
        return "/".join([*self.within, self.name])


def in_brackets(text):
    """Splits a text that begins with `<` behind the matching `>`."""
    depth = 0
    for at, sign in enumerate(text):
        depth += (sign == "<") - (sign == ">" and text[at - 1] != "-")
        if not depth:
            return text[1:at], text[at + 1 :]
    return text[1:], ""


def words_in(text, own):
    """The words of a type, joined, without lifetimes and the parameters of the impl."""
    text = re.sub(r"'\w+", "", re.sub(r"\b(?:\w+::)+", "", text)).replace("&", " ref ")
    words = [it for it in re.findall(r"\w+", text) if it not in own]
    return "".join(it[0].upper() + it[1:] for it in words)


def name_of_impl(head):
    """The name that the prover gives an impl: the type's words, the trait's name, the words of the trait's arguments."""
    rest, own = re.sub(r"\bwhere\b.*", "", head.strip().removesuffix("{").removeprefix("impl")), set()
    if rest.startswith("<"):
        parameters, rest = in_brackets(rest)
        own = {*re.findall(r"(?:^|, )(?:const )?(\w+)", parameters)}
    of_trait, is_of_trait, of_type = rest.strip().partition(" for ")
    if not is_of_trait:
        return words_in(of_trait, own)
    trait, _, arguments = of_trait.partition("<")
    return words_in(of_type, own) + trait.split("::")[-1] + words_in(arguments, own)


def body_of(lines, head, indent):
    """The first and the last line of a function's body, which are one line if it is empty, or None if it has none."""
    depth = 0
    for at in range(head, len(lines)):
        line = lines[at]
        depth += line.count("{") - line.count("}")
        opens = line == f"{indent}{{" or (line.endswith(" {") and (at == head or line.startswith((f"{indent})", f"{indent}where"))))
        if opens:
            return at, next(n for n in range(at + 1, len(lines)) if lines[n] == f"{indent}}}")
        if line.endswith("{}"):
            return at, at
        if not depth and (line.endswith(";") or (at > head and HEAD.match(line))):
            return None
    return None


def module_of(file):
    """The module of a file of src/, as the parts of its path."""
    return [it for it in file.removeprefix("src/").removesuffix(".rt").split("/") if it not in ("lib", "main", "mod")]


def types_of(texts):
    """The module in which a crate declares each of its types, by the type's name."""
    found = {}
    for file, text in texts.items():
        for name in re.findall(r"^(?:pub(?:\([a-z]+\))? )?(?:struct|enum) (\w+)", text, re.MULTILINE):
            found[name] = module_of(file)
    return found


def functions_of(text, file, types):
    """The functions of a file of src/ that have a body of their own, in order, where `types` is what `types_of` returns. The
    prover puts a type's own functions into the module of the type, wherever they are."""
    module = module_of(file)
    lines, found, within, at = text.split("\n"), [], None, 0
    while at < len(lines):
        line = lines[at]
        if re.match(r"(pub(\([a-z]+\))? )?(unsafe )?(impl|trait)\b", line):
            end = next(n for n in range(at, len(lines)) if lines[n].endswith(("{", "{}")))
            head = re.sub(r"^(pub(\([a-z]+\))? )?(unsafe )?", "", " ".join(lines[at : end + 1]))
            within = name_of_impl(head) if head.startswith("impl") else re.match(r"trait (\w+)", head)[1]
        elif line == "}":
            within = None
        head = HEAD.match(line)
        body = body_of(lines, at, head[1]) if head else None
        if body:
            place = [*types.get(within, module), within] if within and head[1] else module
            function = Function(head[2], place, (at, *body))
            while function.start and lines[function.start - 1].strip():
                function.start -= 1
                cycle = CYCLE.match(lines[function.start])
                if cycle:
                    function.cycle = cycle[1]
                    function.attributes.append(function.start)
            function.is_const = " const fn " in f" {line}" or line.strip().startswith("const fn")
            found.append(function)
            at = body[1]
        at += 1
    return found


def stubbed(text, functions):
    """A file's text in which these functions have no body and no cycle. Each line keeps its number."""
    lines = text.split("\n")
    for it in functions:
        for at in it.attributes:
            lines[at] = ""
        if it.last > it.begin:
            indent = re.match(" *", lines[it.last])[0]
            lines[it.begin + 1 : it.last] = [f"{indent}    {STUB}", *[""] * (it.last - it.begin - 2)]
    return "\n".join(lines)


def texts_below(folder, part, ending):
    """The files of a crate below a folder such as src/, each with its text."""
    found = {}
    for at, folders, files in os.walk(f"{folder}/{part}"):
        folders.sort()
        for name in sorted(it for it in files if it.endswith(ending)):
            path = f"{at}/{name}"
            with open(path, encoding="utf-8") as it:
                found[os.path.relpath(path, folder)] = it.read()
    return found
