#!/usr/bin/env python3
"""Puts single faults into plain.py and looks whether the rows of by_hand.py find each.

With words, which are files of bundles, it also tells whether plain.py with the fault answers to one of them
otherwise than without it. Nothing is written: the faulty text is run in memory.
"""

import os
import sys
import types

import by_hand
import plain

FAULTS = [
    # the lengths of instructions
    ("(26, 53)", "(26, 52)"), ("(59, 131)", "(59, 130)"), ("(133, 152)", "(134, 152)"), ("190, 191, 194", "190, 194"),
    ("_set((21, 25), (54, 58), 169)", "_set((21, 25), (54, 58))"), ("_set(16, 18, 188)", "_set(16, 18)"),
    ("(153, 168)", "(153, 167)"), ("198, 199)", "198)"), ("_set(200, 201)", "_set(200)"), ("xc5...|", "xc5..|"),
    ("|%s....|", "|%s...|"), ("xc4%s..|", "xc4%s.|"), ("x84....)", "x84...)"), ("192, 193, 198", "187, 192, 193, 198"),
    ("180, 181, 189", "186, 180, 181, 189"), ("_FIRST_FREE = 202", "_FIRST_FREE = 203"), ("_FIRST_FREE = 202", "_FIRST_FREE = 201"),
    ("not _WIDENED.match(code, at + 1)", "False"), ("_LOCAL + b\"|\\\\x84\"", "_LOCAL"), ("at + 1 < len(code) and not", "not"),
    # switches
    ("numbers = at + 4 - at % 4", "numbers = at + 1"), ("numbers = at + 4 - at % 4", "numbers = at + 5 - (at + 1) % 4"),
    (">ii", ">II"), ("low <= high", "low < high"), ("right = low <= high", "right = True"), ("(high - low + 1)", "(high - low)"),
    ("8 * pairs", "4 * pairs"), ("pairs >= 0", "pairs > 0"), ("right = pairs >= 0", "right = True"),
    ("    _inside(code, end, start, at)\n    return end", "    return end"), ("numbers + 12, start", "numbers + 11, start"),
    ("_inside(code, numbers + 8, start, at)", "_inside(code, numbers + 4, start, at)"),
    ("ClassFault(\"BadSwitch\", start + at)", "ClassFault(\"BadSwitch\", at)"),
    ("raise ClassFault(\"CodeCut\", start + at)\n\n\ndef _after", "raise ClassFault(\"CodeCut\", start + end)\n\n\ndef _after"),
    # sites and what they name
    ("182: (b\"virtual\"", "182: (b\"special\""),
    ("(b\"virtual\", 3, (10,))", "(b\"virtual\", 3, (10, 11))"), ("(b\"special\", 3, (10, 11))", "(b\"special\", 3, (10,))"),
    ("(b\"static\", 3, (10, 11))", "(b\"static\", 3, (10,))"), ("5, (11,))", "5, (10, 11))"), ("5, (11,))", "3, (11,))"),
    ("178: (b\"staticfield\", 3, (9,)), ", ""), ("179: (b\"staticfield\", 3, (9,)), ", ""),
    ("178: (b\"staticfield\", 3, (9,))", "178: (b\"staticfield\", 3, (9, 10))"),
    ("179: (b\"staticfield\", 3, (9,))", "179: (b\"static\", 3, (9,))"), ("187: (b\"new\", 3, (7,)),", ""),
    ("187: (b\"new\", 3", "187: (b\"new\", 2"), ("178: (b\"staticfield\", 3", "178: (b\"staticfield\", 2"), ("187: (b\"new\"", "189: (b\"new\""),
    ("_inside(code, end, start, at)\n                sites.append", "sites.append"),
    ("sites.append((at, self.target(code[at:at + 3], start + at)))", "sites.append((end, self.target(code[at:at + 3], start + at)))"),
    ("named = self.type_name(index, offset), b\"\", b\"\"", "named = self.pool[_entry(self.pool, index, tags, offset)[0]][1], b\"\", b\"\""),
    ("        owner = self.type_name(place, offset)\n", "        owner = self.pool[self.pool[place][1][0]][1]\n"),
    ("name = self.named(self.pool[name][1], offset)\n        return owner", "name = self.pool[name][1]\n        return owner"),
    ("self.described(self.pool[descriptor][1], _KINDS[tags[0]], offset)", "self.pool[descriptor][1]"),
    ("self.described(self.pool[descriptor][1], _KINDS[tags[0]], offset)", "self.described(self.pool[descriptor][1], is_method_descriptor, offset)"),
    ("_KINDS = {9: is_field_descriptor", "_KINDS = {9: bool"), ("if kind == b\"new\":", "if False:"),
    ("if (text, is_right) not in self.descriptors", "if text not in {known for known, _ in self.descriptors}"),
    ("        if not text:\n            raise ClassFault(\"EmptyName\", offset)\n", ""),
    ("raise ClassFault(\"Descriptor\", offset)", "raise ClassFault(\"EmptyName\", offset)"),
    # descriptors
    ("_FIELD.fullmatch(text)", "_FIELD.match(text)"), ("0,255}(?:[BCFISZ]", "0,256}(?:[BCFISZ]"), ("0,255}(?:[BCFISZ]", "0,254}(?:[BCFISZ]"),
    ("[BCFISZ]", "[BCFISZV]"), ("[BCFISZ]", "[BCFIS]"), ("([DJ])|L[^;]+;", "([DJ])|L[^;]*;"), ("([DJ])|L[^;]+;", "([DJ])|L[^;.]+;"),
    ("units += 2 if field.group(1) and text[at] != 0x5B else 1", "units += 1"), ("units > 255", "units > 256"),
    # `invokedynamic` and its handles
    ("elif opcode == _INVOKEDYNAMIC:", "elif opcode == 186 and False:"), ("end = at + 5", "end = at + 3"),
    ("end = at + 5\n                _inside(code, end, start, at)", "end = at + 5"),
    ("(_DYNAMIC_TAG,), offset)[0]", "(17, _DYNAMIC_TAG), offset)[0]"), ("(_DYNAMIC_TAG,), offset)[0]", "(_DYNAMIC_TAG,), offset)[1]"),
    ("at << 16 |", "end << 16 |"), ("_CALLING = 5", "_CALLING = 6"), ("_CALLING = 5", "_CALLING = 4"), ("_CALLING = 5", "_CALLING = 1"),
    ("b\"handle%d\" % kind, *self", "b\"handle%d\" % (kind + 1), *self"),
    ("if self.rows is None or number >= len(self.rows):", "if self.rows is None or number > len(self.rows):"),
    ("        if self.rows is None or number >= len(self.rows):\n            raise ClassFault(\"Bootstrap\", offset)\n",
     "        if self.rows is None or number >= len(self.rows):\n            return []\n"),
    ("        _entry(self.pool, handle, (_HANDLE_TAG,), offset)\n", ""), ("for index in (handle, *struct.unpack(\">%dH\" % (len(arguments) // 2), arguments)):",
     "for index in struct.unpack(\">%dH\" % (len(arguments) // 2), arguments):"),
    ("for index in (handle, *struct.unpack(\">%dH\" % (len(arguments) // 2), arguments)):", "for index in (handle,):"),
    ("*struct.unpack(\">%dH\" % (len(arguments) // 2), arguments)", "*struct.unpack(\">%dH\" % (len(arguments) // 2), arguments)[::-1]"),
    ("if index == 0 or index >= len(self.pool) or self.pool[index] is None:\n                raise", "if index == 0:\n                raise"),
    ("if index == 0 or index >= len(self.pool) or self.pool[index] is None:\n                raise",
     "if index >= len(self.pool) or self.pool[index] is None:\n                continue\n            if index == 0:\n                raise"),
    ("raise ClassFault(\"BadIndex\", offset, index)\n            if self", "raise ClassFault(\"BadIndex\", offset)\n            if self"),
    ("            if self.pool[index][0] == _HANDLE_TAG:\n", "            if self.pool[index][0] != _HANDLE_TAG:\n                raise ClassFault(\"WrongKind\", offset, index)\n            else:\n"),
    ("            if self.pool[index][0] == _HANDLE_TAG:\n", "            if self.pool[index][0] in (1, 18):\n                raise ClassFault(\"WrongKind\", offset, index)\n            if self.pool[index][0] == _HANDLE_TAG:\n"),
    ("                self.count(len(more), offset)\n                found += more", "                found += more"),
    ("            self.count(len(found), offset)\n            return found", "            return found"),
    ("found += more\n        self.resolved[number] = found", "found = more + found\n        self.resolved[number] = found"),
    ("                found += more\n        self.resolved", "                found += [one for one in more if one not in found]\n        self.resolved"),
    ("self.row(packed & 0xFFFF, start + place)", "self.row(packed & 0xFF, start + place)"), ("self.row(packed & 0xFFFF, start + place)", "self.row(packed & 0xFFFF, start)"),
    ("sorted(sites + more, key=lambda site: site[0]) if more", "sites + more if more"),
    ("sorted(sites + more, key=lambda site: site[0]) if more", "sorted(more + sites) if more"),
    ("if name != _BOOTSTRAP:", "if name[:16] != _BOOTSTRAP:"), ("_BOOTSTRAP = b\"BootstrapMethods\"", "_BOOTSTRAP = b\"BootstrapMethod\""),
    ("            if self.rows is not None:\n                raise ClassFault(\"Bootstrap\", place)\n", ""),
    ("            if self.rows is not None:\n                raise ClassFault(\"Bootstrap\", place)\n            self.rows = self.bootstrap_rows(reader.content())",
     "            content = reader.content()\n            if self.rows is not None:\n                raise ClassFault(\"Bootstrap\", place)\n            self.rows = self.bootstrap_rows(content)"),
    ("raise ClassFault(\"Bootstrap\", place)", "raise ClassFault(\"Bootstrap\", place + 2)"),
    ("            if name != b\"Code\":\n", "            if name == _BOOTSTRAP:\n                self.rows = self.bootstrap_rows(reader.content())\n                continue\n            if name != b\"Code\":\n"),
    ("fits = min(count, (reader.end - reader.at) // 2)\n            arguments = reader.take(2 * fits)", "fits = count\n            arguments = reader.take(2 * fits)"),
    ("        reader.finish()\n        return rows", "        return rows"),
    ("rows.append((handle, arguments))", "_entry(self.pool, handle, (_HANDLE_TAG,), reader.at)\n            rows.append((handle, arguments))"),
    ("    methods = [(name, descriptor, body.all_sites(*code)) for name, descriptor, code in methods]\n    reader.finish()\n",
     "    reader.finish()\n    methods = [(name, descriptor, body.all_sites(*code)) for name, descriptor, code in methods]\n"),
    # the parts of a Code attribute and other attributes
    ("if not 1 <= length <= CODE:", "if not length <= CODE:"), ("CODE = 65535", "CODE = 65536"), ("CODE = 65535", "CODE = 65534"),
    ("ClassFault(\"CodeLength\", place)", "ClassFault(\"CodeLength\", start)"),
    ("        reader.skip(2)\n        reader.skip(2)\n        place", "        reader.skip(4)\n        place"), ("reader.skip(8)", "reader.skip(4)"),
    ("for _ in range(reader.u2()):\n            reader.skip(8)", "reader.skip(8 * reader.u2())"),
    ("        self.attributes(reader)\n        reader.finish()", "        self.attributes(reader)"),
    ("        self.attributes(reader)\n        reader.finish()", "        pass"),
    ("            if found is not None:\n                raise ClassFault(\"DoubleCode\", place)\n", ""),
    ("            if found is not None:\n                raise ClassFault(\"DoubleCode\", place)\n            found = self.code_attribute(reader.content())",
     "            content = reader.content()\n            if found is not None:\n                raise ClassFault(\"DoubleCode\", place)\n            found = self.code_attribute(content)"),
    ("            self.utf8(reader)\n            reader.skip_content()", "            reader.u2()\n            reader.skip_content()"),
    ("return _Reader(self.data, start, self.at)", "return _Reader(self.data, start, self.end)"), ("return found or (0, [], ())", "return (0, [], ())"),
    # fields and methods
    ("name = self.name(reader)\n            found", "name = self.utf8(reader)[1]\n            found"),
    ("name = self.name(reader)\n            pair", "name = self.utf8(reader)[1]\n            pair"),
    ("found.append((name, self.descriptor(reader, is_field_descriptor)))", "found.append((name, self.utf8(reader)[1]))"),
    ("found.append((name, self.descriptor(reader, is_field_descriptor)))", "found.append((name, self.descriptor(reader, is_method_descriptor)))"),
    ("is_field_descriptor)))\n            self.attributes(reader)", "is_field_descriptor)))\n            self.method_attributes(reader)"),
    ("is_field_descriptor)))\n            self.attributes(reader)", "is_field_descriptor)))\n            self.class_attributes(reader)"),
    ("pair = name, self.descriptor(reader, is_method_descriptor)", "pair = name, self.utf8(reader)[1]"),
    ("raise ClassFault(\"DoubleMethod\", row)", "raise ClassFault(\"DoubleMethod\", reader.at)"),
    ("            if pair in seen:\n                raise ClassFault(\"DoubleMethod\", row)\n", ""),
    ("raise ClassFault(\"EmptyName\", offset)", "raise ClassFault(\"EmptyName\", offset, 1)"),
    # the pool
    ("_read_utf8(reader, index)\n    if", "_read_utf8(reader, 0)\n    if"), ("start + good, index", "start, index"), ("[\\xc0-\\xdf]", "[\\xc2-\\xdf]"),
    ("[\\x01-\\x7f]", "[\\x00-\\x7f]"), ("ClassFault(\"BadTag\", start, index)", "ClassFault(\"BadTag\", start)"), ("\"HH\": (2, 2)", "\"HH\": (4,)"),
    ("\"BH\": (1, 2)", "\"BH\": (3,)"), ("\"8s\": (8,)", "\"8s\": (4, 4)"), ("\"4s\": (4,)", "\"4s\": (2, 2)"),
    ("if pool[-1][0] in _WIDE_TAGS and len(pool) < count:", "if False:"), ("if tag in _WIDE_TAGS and index + 1 == len(pool):", "if False:"),
    ("if tag in _WIDE_TAGS and index + 1 == len(pool):\n        raise ClassFault(\"BadIndex\", place, index)", "if tag in _WIDE_TAGS and index + 1 == len(pool):\n        raise ClassFault(\"BadIndex\", place)"),
    ("        if kind not in _HANDLES:\n            raise ClassFault(\"WrongKind\", place, index)\n", "        if kind not in _HANDLES:\n            return\n"),
    ("        _entry(pool, named, _HANDLES[kind], place, index)\n        return", "        return"), ("6: (10, 11), 7: (10, 11)", "6: (10,), 7: (10, 11)"), ("7: (10, 11)", "7: (10,)"),
    ("8: (10,), 9: (11,)}", "8: (10, 11), 9: (11,)}"), ("9: (11,)}", "9: (10, 11)}"), ("5: (10,), 6", "5: (10, 11), 6"),
    ("_entry(pool, named, tags, place, index)", "_entry(pool, named, tags, place)"), ("17: (\"HH\", (None, (12,)))", "17: (\"HH\", (None, None))"),
    ("18: (\"HH\", (None, (12,)))", "18: (\"HH\", (None, None))"), ("12: (\"HH\", ((1,), (1,)))", "12: (\"HH\", ((1,), None))"),
    ("11: (\"HH\", ((7,), (12,)))", "11: (\"HH\", ((7,), None))"), ("20: (\"H\", ((1,),))", "20: (\"H\", (None,))"), ("16: (\"H\", ((1,),))", "16: (\"H\", ((1, 7),))"),
    ("index >= len(pool) or pool[index] is None:\n        raise ClassFault", "index > len(pool) or pool[index] is None:\n        raise ClassFault"),
    # the class
    ("45 <= reader.u2()", "46 <= reader.u2()"), ("<= 65:", "<= 66:"), ("ClassFault(\"Version\", 6)", "ClassFault(\"Version\", 4)"),
    ("if data[reader.at:reader.at + 2] == b\"\\0\\0\":", "if False:"), ("_MODULE = 0x8000", "_MODULE = 0x4000"), ("_MODULE = 0x8000", "_MODULE = 0x8001"),
    ("& _MODULE != 0", "& 0"), ("& _MODULE != 0", "== 0x8000"), ("    reader.finish()\n    return View", "    return View"),
    ("    fields = body.fields(reader)\n", "    if module:\n        return View(name, module, [], [])\n    fields = body.fields(reader)\n"),
    ("    reader.finish()\n    return View", "    if not module:\n        reader.finish()\n    return View"),
    ("raise ClassFault(\"Cut\", self.at)", "raise ClassFault(\"Cut\", self.end)"), ("raise ClassFault(\"Trailing\", self.at)", "raise ClassFault(\"Trailing\", self.end)"),
    # bundles
    ("if not 1 <= size <= 1024:\n            raise bundle_fault(\"Path\", at, entry)", "if not 1 <= size <= 1024:\n            raise bundle_fault(\"Path\", start, entry)"),
    ("        if not 1 <= size <= 1024:\n            raise bundle_fault(\"Path\", at, entry)\n", ""), ("if not 1 <= size <= 1024:", "if not 1 <= size <= 1025:"),
    ("if not 1 <= size <= 1024:", "if not 1 <= size < 1024:"), ("raise bundle_fault(\"Path\", start, entry)", "raise bundle_fault(\"Path\", start - 2, entry)"),
    ("if not is_path(path) or path in seen:", "if not is_path(path):"), ("if not is_path(path) or path in seen:", "if path in seen:"),
    ("b < 0x20 or b in (0x5C, 0x7F)", "b < 0x20 or b in (0x5C,)"), ("b < 0x20 or b in (0x5C, 0x7F)", "b <= 0x20 or b in (0x5C, 0x7F)"),
    ("(b\"\", b\".\", b\"..\")", "(b\".\", b\"..\")"), ("(b\"\", b\".\", b\"..\")", "(b\"\", b\"..\")"),
    ("raise bundle_fault(\"Cut\", at, entry)", "raise bundle_fault(\"Cut\", at, 0)"), ("raise bundle_fault(\"Trailing\", at, count)", "raise bundle_fault(\"Trailing\", at, 0)"),
    ("bundle_fault(\"Magic\", 0, 0)", "bundle_fault(\"Version\", 0, 0)"), ("bundle_fault(\"Version\", 4, 0)", "bundle_fault(\"Version\", 0, 0)"),
    ("if bundle[:4] == JAR:", "if bundle[:2] == JAR[:2]:"), ("if not path.endswith(b\".class\"):", "if not path.endswith(b\"class\"):"),
    ("if not path.endswith(b\".class\"):", "if not path.lower().endswith(b\".class\"):"), ("if not path.endswith(b\".class\"):\n            continue", "if path.startswith(VERSIONS):\n            continue"),
    ("if not path.startswith(VERSIONS):", "if True:"), ("VERSIONS = b\"META-INF/versions/\"", "VERSIONS = b\"META-INF/versions\""),
    ("if not path.startswith(VERSIONS):", "if VERSIONS not in path:"), ("raise Refused(fault.line(entry))", "raise Refused(fault.line(0))"),
    # texts and limits
    ("self.type(owner) + b", "self.part(owner, b\"\") + b"), ("return self.type(owner)\n", "return self.part(owner, b\"\")\n"),
    ("texts.target(*target)", "texts.target(*target[:2], method, target[3])"), ("count += len(sites)", "count += 1"),
    ("CLASS_SITES = 1000000", "CLASS_SITES = 1000001"), ("CLASS_SITES = 1000000", "CLASS_SITES = 999999"),
    ("BUNDLE_SITES = 4000000", "BUNDLE_SITES = 4000001"), ("BUNDLE_SITES = 4000000", "BUNDLE_SITES = 3999999"),
    ("        sites += count_sites(view)\n", "        sites = count_sites(view)\n"), ("raise bundle_fault(\"ManySites\", place, entry)", "raise bundle_fault(\"ManySites\", 0, entry)"),
    ("        if view.module:\n            continue\n        sites += count_sites(view)\n", "        sites += count_sites(view)\n        if view.module:\n            continue\n"),
    ("        sites += count_sites(view)\n", "        if not path.startswith(VERSIONS):\n            sites += count_sites(view)\n"),
]


def faulty(source, old, new):
    """The module of plain.py with one fault; None where its text is not there."""
    if old not in source:
        return None
    module = types.ModuleType("plain")
    exec(compile(source.replace(old, new, 1), "plain.py", "exec"), module.__dict__)
    return module


def answer(module, bundle, command="sites"):
    """The answer of a module to a bundle; a fault may also end it otherwise."""
    try:
        return module.answer(bundle, command)
    except Exception as error:
        return 1, b"", repr(error).encode()


def found_by(module, rows):
    """The first row that finds the fault, or None."""
    for what, bundle, told in rows:
        if not by_hand.right(told, answer(module, bundle)):
            return what
        # two texts were told: that of sites may hide what list shows
        if isinstance(told, tuple) and not by_hand.lists(told, answer(module, bundle, "list")):
            return what
    return None


def read(path):
    """The bytes of a file."""
    with open(path, "rb") as source:
        return source.read()


def main(words):
    """Tries every fault."""
    if words == ["--help"]:
        print(__doc__ + "\nUse: faults.py [BUNDLE ...]")
        return 0
    source = read(os.path.abspath(plain.__file__)).decode()
    rows = sorted(by_hand.rows(), key=lambda row: len(row[1]))
    bundles = [read(path) for path in words]
    right = [plain.answer(bundle, "sites") for bundle in bundles]
    bad = by_bundles = 0
    for old, new in FAULTS:
        module = faulty(source, old, new)
        what = module and found_by(module, rows)
        seen = module is not None and any(answer(module, bundle) != wanted for bundle, wanted in zip(bundles, right))
        by_bundles += seen
        bad += what is None
        state = "NOT THERE" if module is None else "found" if what else "NOT FOUND"
        print("%-9s %-13s %-60s -> %s" % (state, "bundles too" if seen else "", old.replace("\n", " ")[:60], what), flush=True)
    print("%d faults, %d not found by hand; %d found by the bundles" % (len(FAULTS), bad, by_bundles))
    return 1 if bad else 0


if __name__ == "__main__":
    sys.exit(main(sys.argv[1:]))
