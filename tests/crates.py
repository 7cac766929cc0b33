"""Reads crates.txt and the sources as text, in the layout of `rt fmt`: for tests/contracts, tests/documents and
tests/wrong_answers."""
import collections
import re

# A crate of crates.txt, the comment above it, the crates that it lists, and whether it is a static library.
Crate = collections.namedtuple("Crate", "name says lists is_static")
# `seen` is "pub ", "pub(crate) " or "", and `contract` what is between the name and the body.
Function = collections.namedtuple("Function", "path seen name contract")

FUNCTION = re.compile(r"^(pub(?:\(crate\))? )?(?:extern \"C\" )?fn (\w+)(.*?)^\{$", re.M | re.S)
# A block of methods of a type, and one of a conversion between two types, to their ends.
METHODS = re.compile(r"^impl(?:<[^>]*>)? (\w+)(?:<[^>]*>)? \{$(.*?)^\}$", re.M | re.S)
TEXT = re.compile(r"^impl fmt::Display for (\w+) \{$(.*?)^\}$", re.M | re.S)
CONVERSION = re.compile(r"^impl From<([^\n]+)> for (\w+) \{$(.*?)^\}$", re.M | re.S)
METHOD = re.compile(r"^    (pub(?:\(crate\))? )?fn (\w+)(.*?)^    \{$", re.M | re.S)
GHOST_MEMBER = re.compile(r"^    ghost (\w+) = \{(.*?)\};$", re.M | re.S)
PUBLIC_MODULE = re.compile(r"^pub mod (\w+);$", re.M)
PUBLIC = "pub "


def text_of(path):
    return path.read_text(encoding="utf-8")


def crates_of(root):
    """The crates of crates.txt, in its order."""
    found, comment = [], []
    for line in text_of(root / "crates.txt").splitlines():
        code, _, remark = line.partition("#")
        if code.strip():
            name, lists = code.split(":")
            name, *kind = name.split()
            found.append(Crate(name, " ".join(comment), set(lists.split()), "staticlib" in kind))
        comment = [*comment, remark.strip()] if remark and not code.strip() else []
    return found


def libraries(root):
    """The names of the crates that other crates can use, in the order of crates.txt."""
    return [
        crate.name
        for crate in crates_of(root)
        if not crate.is_static and (root / "crates" / crate.name / "src/lib.rt").exists()
    ]


def static_libraries(root):
    """The names of the crates that C can link."""
    return [crate.name for crate in crates_of(root) if crate.is_static]


def public_files(root, crate):
    """The files of a library whose `pub` functions another crate can call: the root and the public modules."""
    source = root / "crates" / crate / "src"
    modules = PUBLIC_MODULE.findall(text_of(source / "lib.rt"))
    return [path for path in sorted(source.glob("*.rt")) if path.stem in ("lib", *modules)]


def functions_in(path):
    """Functions, methods, conversions and texts, under the names that the toolchain has for them: `Draft::push_bytes`,
    `U8FromRefusal::from` for `impl From<Refusal> for u8`, `RefusalDisplay::fmt` for `impl fmt::Display for Refusal`."""
    text = text_of(path)
    found = [Function(path, *function) for function in FUNCTION.findall(text)]
    for type_name, block in METHODS.findall(text):
        found += [Function(path, seen, f"{type_name}::{name}", says) for seen, name, says in METHOD.findall(block)]
    for source, target, block in CONVERSION.findall(text):
        name = f"{in_camel_case(target)}From{''.join(map(in_camel_case, re.findall(r'[A-Za-z_0-9]+', source)))}::from"
        found.append(Function(path, PUBLIC, name, promise_of(block)))
    for type_name, block in TEXT.findall(text):
        found.append(Function(path, PUBLIC, f"{type_name}Display::fmt", promise_of(block)))
    return found


def promise_of(block):
    """What a trait's method promises stands in the ghost members, and the trait itself asks nothing."""
    return "".join(f" ensures {{ {text} }}" for _, text in GHOST_MEMBER.findall(block))


def in_camel_case(name):
    return "".join(part[:1].upper() + part[1:] for part in name.split("_"))


def public_functions(root, crate):
    """The functions of a library that another crate can call."""
    return [f for path in public_files(root, crate) for f in functions_in(path) if f.seen == PUBLIC]
