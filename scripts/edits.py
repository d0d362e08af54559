"""The wrong bodies of crates/NAME/must-fail/*.edit: their texts, and the functions that they turn."""
import re

HEAD = re.compile(r"^([ \t]*)(?:pub(?:\([a-z ]+\))? )?(?:const |unsafe |extern \"C\" )*fn (\w+)", re.M)
BLOCK = re.compile(r"^((?:impl|(?:pub(?:\([a-z ]+\))? )?trait)\b[^{]*)\{", re.M)


class BadEdit(Exception):
    """An edit that cannot be read, or applied."""


class Edit:
    """Pairs of texts, and the functions in whose code the old ones stand: none in the list where one stands in no function."""

    def __init__(self, crate, path):
        self.folder, self.label = crate, f"{crate.name}/{path.name}"
        self.pairs = read_pairs(path.read_text(encoding="utf-8"))
        self.functions = []
        self.apply({})
        for file, old, _ in self.pairs:
            text = (crate / file).read_text(encoding="utf-8")
            # a further pair may turn what an earlier one wrote: that stands in the same function
            place = function_at(file, text, text.index(old)) if old in text else None
            if place is None and old in text:
                self.functions = []
                return
            if place and place not in self.functions:
                self.functions.append(place)

    def apply(self, texts):
        """Returns the texts of files, which other edits may have turned, with this edit put in."""
        texts = dict(texts)
        for file, old, new in self.pairs:
            if file not in texts:
                texts[file] = (self.folder / file).read_text(encoding="utf-8")
            found = texts[file].count(old)
            if found != 1:
                raise BadEdit(f"an 'old:' text is in {file} {found} times, and not once")
            texts[file] = texts[file].replace(old, new)
        return texts


def read_pairs(text):
    """Returns the file, the old and the new text of each pair, in the kit's form: other lines are not read."""
    pairs, file, old = [], None, None
    for line in text.split("\n"):
        if line.startswith("file: "):
            file = line.removeprefix("file: ").strip()
        elif line.startswith("old: "):
            old = line.removeprefix("old: ")
        elif line.startswith("new:"):
            if not file or not old:
                raise BadEdit("a 'new:' line stands before any 'file:' or 'old:' line")
            pairs.append((file, old, line.removeprefix("new:").removeprefix(" ")))
            old = None
    if not pairs:
        raise BadEdit("it has no 'old:' and 'new:' pair")
    return pairs


def function_at(file, text, at):
    """Returns the module, the block and the name of the function in whose text this position is, or None."""
    if not file.endswith(".rt"):
        return None
    end = text.find("\n", at)
    before = text[: end if end >= 0 else len(text)]
    heads = list(HEAD.finditer(before))
    # a function has ended where a brace closes it at its own indentation
    if not heads or re.search(rf"^{heads[-1][1]}\}}", text[heads[-1].end() : at], re.M):
        return None
    blocks = BLOCK.findall(before)
    module = file.removeprefix("src/").removesuffix(".rt").removesuffix("/mod").replace("/", "::")
    block = block_name(blocks[-1]) if heads[-1][1] and blocks else ""
    return "" if module in ("lib", "main") else module, block, heads[-1][2]


def block_name(head):
    """Returns what the prover calls a block: `impl<K> Trait<K> for Type<K>` is TypeTrait, `impl Trait<u64> for Type` is TypeTraitU64,
    `impl<F> Trait for F` is AnyTrait, `impl Trait for &str` is RefStrTrait, and `impl Type` is Type."""
    flat = " ".join(head.split())
    trait = re.match(r"(?:pub(?:\([a-z ]+\))? )?trait (\w+)", flat)
    if trait:
        return trait[1]
    own, rest = bracketed(flat.removeprefix("impl").strip())
    parameters = {part.removeprefix("const ").partition(":")[0].strip() for part in parts_of(own)}
    trait, _, owner = re.sub(r"\bwhere\b.*", "", rest).strip().rpartition(" for ")
    path = re.match(r"[\w:]*", trait)[0]
    name = owner_name(owner, parameters) + path.split("::")[-1]
    for argument in parts_of(bracketed(trait[len(path) :])[0]):
        if not re.fullmatch(r"'?\w+", argument):
            # the prover has a word for this one, and a name that begins so is looked for
            break
        if argument not in parameters and not argument.startswith("'"):
            name += capital(argument)
    return name


def owner_name(owner, parameters):
    """Returns what the prover calls a type, of which these are parameters of the block: nothing for a slice and the like."""
    sign, _, is_changed, path = re.match(r"(&?)('\w+ )?(mut )?([\w:]*)", owner).groups()
    name = path.split("::")[-1]
    reference = "Ref" if sign and not is_changed and name else ""
    if name in parameters:
        return reference or "Any"
    return reference + capital(name)


def capital(name):
    """Returns the name with a capital at its beginning."""
    return name[:1].upper() + name[1:]


def bracketed(text):
    """Returns what stands in the brackets < and > with which the text begins, and what follows them."""
    depth = 0
    for at in range(len(text)):
        depth += is_opening(text, at) - is_closing(text, at)
        if depth == 0:
            return (text[1:at], text[at + 1 :]) if at else ("", text)
    return "", text


def parts_of(text):
    """Returns what commas part in the text, outside of brackets."""
    depth, parts = 0, [""]
    for at, sign in enumerate(text):
        depth += is_opening(text, at) - is_closing(text, at)
        if sign == "," and depth == 0:
            parts.append("")
        else:
            parts[-1] += sign
    return [part.strip() for part in parts if part.strip()]


def is_opening(text, at):
    return text[at] in "<(["


def is_closing(text, at):
    return text[at] in ")]" or (text[at] == ">" and text[at - 1 : at] not in ("-", "="))
