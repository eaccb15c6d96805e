"""What the kernel's files say, for kernel_tables.py: its headers, rt_link.yaml, and code that writes and reads rows."""
import functools
import re
import subprocess
import sys
import tempfile
from pathlib import Path

try:
    import yaml
except ImportError:
    yaml = None

from kernel_names import LEFT_OUT, PLACES, ROWS, VALUES, VALUES_LEFT_OUT
from kernel_ours import Field, width

YAML_FILES = ["Documentation/netlink/specs/rt_link.yaml", "Documentation/netlink/specs/rt-link.yaml"]
HEADERS = [f"include/{folder}{name}.h" for folder, *names in ROWS["headers"] for it in names for name in it.split()]
CODE = {name for place in PLACES.values() for name in place.files.split()}
CODE |= {known.header for known in VALUES.values() if known.header.endswith(".c")}

TYPES, PUTS = dict(ROWS["types"]), dict(ROWS["puts"])
LENGTHS = {name: int(size) for name, size in ROWS["lengths"]}
POLICY = re.compile(r"\[([A-Z]\w+)\]\s*=\s*(\{[^{}]*\}|NLA_POLICY_\w+\((?:[^()]|\([^()]*\))*\))")


class Headers:
    """Constants and structures. Conditions of the preprocessor are not looked at: all lines are read."""

    def __init__(self, texts):
        self.values, self.defines, self.structs, self.block, self.names = {}, {}, {}, {}, {}
        for header, text in texts.items():
            text = re.sub(r"/\*.*?\*/|//[^\n]*", " ", text, flags=re.S).replace("\\\n", " ")
            names = self.names.setdefault(header, [])
            for name, body in re.findall(r"^[ \t]*#[ \t]*define[ \t]+(\w+)[ \t]+(\S.*?)[ \t]*$", text, flags=re.M):
                if name != body:
                    self.defines.setdefault(name, body)
                    names.append(name)
            text = re.sub(r"^[ \t]*#.*$", "", text, flags=re.M)
            for body in re.findall(r"\benum\b\s*\w*\s*\{([^{}]*)\}", text):
                block, last = [], -1
                for name, expression in re.findall(r"(?:^|,)\s*(\w+)\s*(?:=\s*([^,]*[^,\s]))?", body):
                    last = self.evaluate(expression) if expression else last + 1
                    if last is None:
                        break
                    self.values[name] = last
                    block.append(name)
                    self.block[name] = block
                    names.append(name)
            for name, body in re.findall(r"\bstruct\s+(\w+)\s*\{([^{}]*)\}", text):
                self.read_struct(name, body)

    def read_struct(self, name, body):
        """Fields at their offsets as C lays them out on 64 bits, with the size; none if a type is not known."""
        fields, end, align = [], 0, 1
        for item in filter(None, (part.strip() for part in body.split(";"))):
            found = re.fullmatch(r"([\w ]+?)\s+(\w+)(?:\[(\w+)\])?", item)
            kind, count = found and TYPES.get(found[1]), found and self.evaluate(found[3] or "1")
            if not kind or not count:
                return
            size = width(kind)
            align, end = max(align, size), end + -end % size
            fields.append(Field(found[2], end, f"{count * size} bytes" if found[3] else kind))
            end += count * size
        self.structs[name] = (fields, end + -end % align)

    def number(self, name):
        """The value of a constant, or None."""
        if name not in self.values and name in self.defines:
            self.values[name] = self.evaluate(self.defines.pop(name))
        return self.values.get(name)

    def evaluate(self, expression):
        """The value of an expression of numbers, constants and operators on bits, or None."""
        text = re.sub(r"\b__cpu_to_be\d+\b", "", expression.strip())
        text = re.sub(r"\b(0[xX][0-9a-fA-F]+|\d+)[uUlL]+\b", r"\1", text)
        text = re.sub(r"\b[A-Za-z_]\w*", lambda m: str(self.number(m.group())), text)
        try:
            return eval(text) if re.fullmatch(r"[\dxXa-fA-F\s()|&<>~+*-]+", text) else None
        except SyntaxError:
            return None

    def group(self, prefix, beside=None, header=None):
        """The constants of one list without their prefix: those of the enum that has this one, else of the header, else
        all with a prefix, in their order; but for the last, the first of an enum and padding."""
        files = [self.names.get(header, [])] if header else self.names.values()
        names = self.block.get(beside) or [name for names in files for name in names]
        ends = ["MAX", "CNT", "PAD"] + ["UNSPEC"] * (prefix != "AF_")
        return {name[len(prefix):]: self.number(name) for name in names if prefix and name.startswith(prefix)
                and name[len(prefix):] not in ends and self.number(name) is not None}


def unpack(archive, folder):
    """Unpacks what is read of a packed tree. What it does not have is not there."""
    files = [f"*/{name}" for name in YAML_FILES + HEADERS + sorted(CODE)]
    subprocess.run(["tar", "-xf", archive, "-C", folder, "--strip-components=1", "--wildcards",
                    "--no-wildcards-match-slash", *files], stderr=subprocess.DEVNULL, check=False)


def type_of(it):
    """The type of a field or an attribute of rt_link.yaml, as 32 bytes, u16, or be16 where its order is said."""
    if "len" in it:
        return f"{it['len']} bytes"
    return it["type"].replace("u", "be") if it.get("byte-order") == "big-endian" else it["type"]


class Kernel:
    def __init__(self, path):
        with tempfile.TemporaryDirectory() as folder:
            if Path(path).is_file():
                unpack(path, folder)
                path = folder
            self.files = {name: Path(path, name).read_text("utf-8") for name in [*YAML_FILES, *HEADERS, *sorted(CODE)]
                          if Path(path, name).is_file()}
        self.yaml = next((self.files[name] for name in YAML_FILES if name in self.files), None)
        if self.yaml and not yaml:
            sys.exit("kernel_tables: the kernel's files are there, and no python3-yaml to read rt_link.yaml")
        spec = yaml.safe_load(self.yaml) if self.yaml else {}
        self.headers = Headers({re.sub(r".*/(linux|net)/", "", name): self.files[name]
                                for name in HEADERS if name in self.files})
        self.lists, self.structs, self.sets = {}, {}, {}
        for it in spec.get("definitions", []):
            if it["type"] == "struct":
                fields = [field for field in it["members"] if field["type"] != "pad"]
                self.structs[it["name"]] = [Field(field["name"], None, type_of(field)) for field in fields]
            elif it["type"] in ("enum", "flags"):
                values, following = {}, it.get("value-start", 0)
                for entry in it["entries"]:
                    name, value = (entry["name"], entry.get("value")) if isinstance(entry, dict) else (entry, None)
                    following = following if value is None else value
                    values[str(name)] = 1 << following if it["type"] == "flags" else following
                    following += 1
                self.lists[it["name"]] = values
        # a set as number: attribute; numbers count from 1, and a subset has those of its whole
        for it in spec.get("attribute-sets", []):
            numbers, following = {}, 1
            whole = {a["name"]: n for n, a in self.sets.get(it.get("subset-of"), {}).items()}
            for attribute in it["attributes"]:
                following = whole.get(attribute["name"], attribute.get("value", following))
                numbers[following] = dict(whole and self.sets[it["subset-of"]][following], **attribute)
                following += 1
            self.sets[it["name"]] = numbers
        self.messages = {it["name"]: {form["value"]: form["attribute-set"] for form in it["formats"]}
                         for it in spec.get("sub-messages", [])}
        for name, attributes in LEFT_OUT.items():
            for n, (word, kind, *nested) in attributes.items():
                attribute = {"name": word, "type": kind, "nested-attributes": " ".join(nested), "left out": True}
                self.sets.setdefault(name, {}).setdefault(n, attribute)
        self.lists.update(VALUES_LEFT_OUT)

    @functools.cache
    def of_code(self, names):
        """The files of code that are there."""
        return Code("\n".join(self.files[name] for name in names.split() if name in self.files))


class Code:
    """What files of the kernel put into attributes, and what their policies take."""

    def __init__(self, text):
        self.text = text = re.sub(r"/\*.*?\*/", " ", text, flags=re.S)
        self.puts, self.policies = {}, {}
        named = dict(re.findall(r'^#define (\w+)\s+"(\w+)"', text, flags=re.M))
        self.kinds = {named.get(word, word).strip('"') for word in re.findall(r'\.kind\s*=\s*("\w+"|\w+),', text)}
        for form, name, size in re.findall(r"\bnla_put(?:_(\w+))?\(\s*\w+,\s*([A-Z]\w+),(?=\s*([^,;]*))", text):
            word = PUTS.get(form, form) or self.length(size)
            if word:
                self.puts.setdefault(name, set()).add(word)
        for name in re.findall(r"\bnla_nest_start(?:_noflag)?\(\s*\w+,\s*([A-Z]\w+)\)", text):
            self.puts.setdefault(name, set()).add("nest")
        for name, policy in POLICY.findall(text):
            taken = self.policy(policy)
            if taken:
                self.policies.setdefault(name, taken)

    @staticmethod
    def length(text):
        """The size of a type as a number, or a structure by its name."""
        text = re.sub(r"\s", "", text)
        name = re.sub(r"^sizeof\((.*)\)$", r"\1", text)
        of_struct = f"struct {name[len('struct'):]}" if name.startswith("struct") and name != text else None
        return LENGTHS.get(name, of_struct)

    def policy(self, text):
        kind = re.search(r"\bNLA_(?:[USBE]+(\d+)|(?:NUL_)?(FLAG|STRING|NESTED))\b", text)
        size = re.search(r"\b(?:len\s*=\s*|EXACT_LEN\(|MIN_LEN\()(.*?)\)?[,\s]*[})]$", text, flags=re.S)
        if "ETH_ADDR" in text:
            return 6
        if "NLA_POLICY_NESTED" in text:
            return "nest"
        if kind:
            return int(kind[1]) // 8 if kind[1] else kind[2].lower().replace("nested", "nest")
        text = size[1] if size else ""
        return self.length(text + ")" * (text.count("(") - text.count(")"))) if size else None

    def table(self, name):
        """The names and numbers of a table of values."""
        table = re.search(rf"\b{name}\[\]\s*=\s*\{{(.*?)\n\}};", self.text, flags=re.S)
        pairs = re.findall(r'\{\s*"([^"]+)",\s*(\w+)', table[1]) if table else []
        return [(name, number) for name, number in pairs if name not in ("default", "maxval")]
