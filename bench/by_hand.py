#!/usr/bin/env python3
"""Checks plain.py, or ./fcg with --fcg, against answers that were worked out by hand.

Each row has a class file or a bundle and the text of sites, or the texts of sites and list, or the fault where the
input is refused. What is refused by sites must be refused by list with the same line, and what isn't must be listed.
"""

import collections
import json
import sys

import measure
import plain
from hostile import FLAGS, Pool, as_module, attribute, attributes, bundle_of, calls, class_file, code_content, u2, u4

SMALL = bytes.fromhex(
    "cafebabe000000410008" "010003702f41" "070001" "0100016d" "010003282956" "0c00030004" "0a00020005" "010004436f6465"
    "00210002000000000000" "0001" "0009000300040001" "000700000010" "ffffffff00000004b80006b100000000" "0000")


# a refusal: the fault of a class file or, with `whole`, of the bundle itself; an offset of None is any
Fault = collections.namedtuple("Fault", "rule offset index entry whole", defaults=(0, 0, False))


def of_bundle(rule, offset, entry=0):
    """A fault of a bundle itself."""
    return Fault(rule, offset, entry=entry, whole=True)


def item_at(starts, length):
    """The first byte of the item that is cut where only `length` bytes stand of items that begin at these places."""
    return max(start for start in starts if start <= length)


SMALLEST = bytes.fromhex("cafebabe00000041000501000149070001010010" "6a6176612f6c616e672f4f626a656374"
                         "0700030601000200040000000000000000")
# the first bytes of the items of SMALL; the content of its attribute is one of them
ITEMS_OF_SMALL = [0, 4, 6, 8, 10, 11, 13, 16, 17, 19, 20, 22, 23, 24, 26, 29, 30, 32, 34, 35, 37, 39, 40, 42, 46, 48, 50, 52,
                  54, 56, 58, 60, 62, 64, 66, 68, 72, 88]


class Made:
    """A class A with a method m, and indexes of what its code may name: a method, an interface's, a field, a type."""

    def __init__(self, owner=b"o/W", name=b"go", descriptor=b"(I)V"):
        pool = self.pool = Pool()
        self.this = pool.named(b"A")
        self.m = pool.utf8(b"m")
        self.void = pool.utf8(b"()V")
        self.code = pool.utf8(b"Code")
        self.note = pool.utf8(b"Note")
        self.boot = pool.utf8(b"BootstrapMethods")
        where = pool.named(owner)
        pair = pool.pair(name, descriptor)
        self.method = u2(pool.entry(10, where, pair))
        self.face = u2(pool.entry(11, where, pair))
        self.field = u2(pool.entry(9, where, pair))
        self.kind = u2(where)

    def front(self):
        """The place of the flags of the class."""
        return 8 + len(self.pool.data())

    def content(self, rule, offset, index=0):
        """A fault at a place of the content of the method's first attribute, where the class has no field."""
        return Fault(rule, self.front() + 26 + offset, index)

    def at(self, rule, pc, index=0):
        """A fault at a place of the code of the method, whose Code is its first attribute."""
        return self.content(rule, 8 + pc, index)

    def field_at(self, rule, offset, index=0):
        """A fault at a place from the first field on."""
        return Fault(rule, self.front() + 10 + offset, index)

    def named_at(self, pc, bytes_of_index):
        """The fault of an instruction at a place that names another entry than it may."""
        index = int.from_bytes(bytes_of_index, "big")
        parts = self.pool.parts
        is_there = 1 <= index <= len(parts) and parts[index - 1]
        return self.at("WrongKind" if is_there else "BadIndex", pc, index)

    def with_rows(self, *rows, more=b"\0\0"):
        """The class file of the method with these attributes."""
        return class_file(self.pool, self.this, [(self.m, self.void, attributes(*rows))], attributes=more)

    def with_fields(self, *fields):
        """The class file of the method without a code and of fields."""
        return class_file(self.pool, self.this, [(self.m, self.void, b"\0\0")], fields=fields)

    def with_field(self, name, descriptor, *rows):
        """The class file of one field of a name, a descriptor and attributes."""
        return self.with_fields((self.pool.utf8(name), self.pool.utf8(descriptor), attributes(*rows)))

    def with_content(self, content):
        """The class file of the method with a Code attribute of this content."""
        return self.with_rows(attribute(self.code, content))

    def with_code(self, code, **how):
        """The class file of the method with this code."""
        return self.with_content(code_content(code, **how))


def text(*rows, target="o/W.go(I)V"):
    """The text of sites of the method: each row is a place and a kind of a site that names `target`."""
    lines = ["site A.m()V %d %s %s\n" % (place, kind, target) for place, kind in rows]
    return "".join(lines) + "sites %d\n" % len(rows)


NONE = "sites 0\n"
NO_TYPE = NONE, "types 0 methods 0\n"
ONE_TYPE = NONE, "type A\nmethod m()V\ntypes 1 methods 1\n"


def instruction_rows():
    """The lengths of the instructions, each before a call."""
    made = Made()
    call = b"\xb6" + made.method
    lengths = {1: [0, 15, 26, 42, 53, 59, 95, 131, 133, 152, 172, 177, 190, 191, 194, 195], 4: [197], 5: [200, 201],
               2: [16, 18, 21, 25, 54, 58, 169, 188],
               3: [17, 19, 20, 132, 153, 168, 180, 181, 189, 192, 193, 198, 199]}
    for length, opcodes in lengths.items():
        for opcode in opcodes:
            # the bytes after it are no opcodes, so that no other length is right
            passed = bytes([opcode]) + b"\xff" * (length - 1)
            yield "opcode %d" % opcode, made.with_code(passed + call), text((length, "virtual"))
            yield "opcode %d cut" % opcode, made.with_code(passed[:-1]), made.at(*(("CodeCut", 0) if length > 1 else ("CodeLength", -4)))
    for opcode in (202, 254, 255, 203):
        yield "opcode %d" % opcode, made.with_code(bytes([opcode]) + bytes(8)), made.at("BadOpcode", 0)
        yield "opcode %d alone" % opcode, made.with_code(b"\0" + bytes([opcode])), made.at("BadOpcode", 1)
    for opcode in (21, 25, 54, 58, 169):
        yield "wide %d" % opcode, made.with_code(b"\xc4" + bytes([opcode]) + b"\xff\xff" + call), text((4, "virtual"))
        yield "wide %d cut" % opcode, made.with_code(b"\xc4" + bytes([opcode]) + b"\xff"), made.at("CodeCut", 0)
    yield "wide 132", made.with_code(b"\xc4\x84\xff\xff\xff\xff" + call), text((6, "virtual"))
    yield "wide 132 cut", made.with_code(b"\xc4\x84\xff\xff\xff"), made.at("CodeCut", 0)
    for opcode in (0, 16, 20, 26, 53, 59, 168, 170, 188, 196, 182):
        yield "wide %d" % opcode, made.with_code(b"\xc4" + bytes([opcode]) + bytes(12)), made.at("BadWide", 0)
    yield "wide 202", made.with_code(b"\0\xc4\xca"), made.at("BadWide", 1)
    yield "wide alone", made.with_code(b"\xc4"), made.at("CodeCut", 0)


def switch_rows():
    """Switches at each padding."""
    made = Made()
    call = b"\xb6" + made.method
    for at in range(4):
        front = b"\0" * at + b"\xaa" + b"\xff" * (3 - at)
        yield ("table at %d" % at, made.with_code(front + b"\xff" * 4 + u4(0xFFFFFFFF) + u4(1) + b"\xff" * 12 + call),
               text((28, "virtual")))
        yield ("table of one at %d" % at, made.with_code(front + b"\xff" * 4 + u4(7) + u4(7) + b"\xff" * 4 + call),
               text((20, "virtual")))
        yield "table cut at %d" % at, made.with_code(front + b"\xff" * 4 + u4(0xFFFFFFFF) + u4(1) + b"\xff" * 11), made.at("CodeCut", at)
        yield "table without high at %d" % at, made.with_code(front + b"\xff" * 4 + u4(0) + b"\0\0\0"), made.at("CodeCut", at)
        yield "table of low above high at %d" % at, made.with_code(front + b"\0" * 4 + u4(1) + u4(0) + b"\0" * 40), made.at("BadSwitch", at)
        yield "table of all at %d" % at, made.with_code(front + b"\0" * 4 + u4(0x80000000) + u4(0x7FFFFFFF) + b"\0" * 40), made.at("CodeCut", at)
        front = b"\0" * at + b"\xab" + b"\xff" * (3 - at)
        yield "lookup at %d" % at, made.with_code(front + b"\xff" * 4 + u4(2) + b"\xff" * 16 + call), text((28, "virtual"))
        yield "lookup of none at %d" % at, made.with_code(front + b"\xff" * 4 + u4(0) + call), text((12, "virtual"))
        yield "lookup cut at %d" % at, made.with_code(front + b"\xff" * 4 + u4(2) + b"\xff" * 15), made.at("CodeCut", at)
        yield "lookup without number at %d" % at, made.with_code(front + b"\xff" * 4 + b"\0\0\0"), made.at("CodeCut", at)
        # were it passed over backwards, the default would be code that ends in a c8
        yield "lookup of -1 at %d, c8" % at, made.with_code(front + u4(0xC8) + u4(0xFFFFFFFF) + b"\0" * 40), made.at("BadSwitch", at)
        yield "lookup of -1 at %d" % at, made.with_code(front + b"\0" * 4 + u4(0xFFFFFFFF) + b"\0" * 40), made.at("BadSwitch", at)
    yield "table at 4", made.with_code(b"\0" * 4 + b"\xaa\0\0\0" + bytes(12) + b"\xff" * 4 + call), text((24, "virtual"))


def call_rows():
    """What each call may name."""
    made = Made()
    good = {182: ("virtual", made.method), 183: ("special", made.method), 184: ("static", made.method),
            185: ("interface", made.face)}
    for opcode, (kind, index) in good.items():
        tail = b"\xff\xff" if opcode == 185 else b""
        call = bytes([opcode]) + index + tail
        yield kind, made.with_code(call), text((0, kind))
        yield kind + " twice", made.with_code(b"\0" + call + b"\0" + call), text((1, kind), (2 + len(call), kind))
        yield kind + " cut", made.with_code(call[:-1]), made.at("CodeCut", 0)
        other = made.method if opcode == 185 else made.face
        wrong = made.named_at(0, other) if opcode in (182, 185) else text((0, kind))
        yield kind + " of the other kind", made.with_code(bytes([opcode]) + other + tail), wrong
        for index in (b"\0\0", made.field, made.kind, u2(made.m), b"\xff\xff"):
            yield kind + " of another entry", made.with_code(bytes([opcode]) + index + tail), made.named_at(0, index)
    for index in (made.method, made.field, made.kind, b"\0\0"):
        yield "opcode 186", made.with_code(b"\xba" + index + b"\0\0"), made.named_at(0, index)
    for opcode in (178, 179, 186, 187):
        yield "byte %d that is no opcode" % opcode, made.with_code(b"\x10" + bytes([opcode])), NONE
    for owner, name, descriptor in ((b"", b"go", b"()V"), (b"o", b"", b"()V"), (b"o", b"go", b""), (b"o", b"go", b"I"),
                                    (b"o", b"go", b"(V)V"), (b"o", b"go", b"(" + b"I" * 256 + b")V")):
        made = Made(owner, name, descriptor)
        rule = "Descriptor" if owner and name else "EmptyName"
        yield "call of %r %r %r" % (owner, name, descriptor[:9]), made.with_code(b"\0\xb8" + made.method), made.at(rule, 1)
        yield "no call of %r %r %r" % (owner, name, descriptor[:9]), made.with_code(b"\xb1"), NONE
    made = Made(b"[Lo.W;", b"<i/t>", b"([La/b-$_;)La%;")
    yield ("escapes", made.with_code(b"\xb7" + made.method),
           "site A.m()V 0 special %5BLo%2EW%3B.%3Ci%2Ft%3E([La/b-$_;)La%25;\nsites 1\n")


RIGHT_FIELDS = [b"B", b"C", b"D", b"F", b"I", b"J", b"S", b"Z", b"Lx;", b"La/b$c;", b"L[;", b"L(;", b"L)V;", b"L.;", b"LI;",
                b"L\xc3\xa9;", b"[I", b"[[J", b"[Lx;", b"[" * 255 + b"I", b"[" * 255 + b"Lx;", b"L" + b"x" * 65533 + b";"]
WRONG_FIELDS = [b"", b"V", b"A", b"i", b"L", b"L;", b"Lx", b"Lx;;", b"Lx;I", b"LI;I", b"II", b"I ", b" I", b"[", b"[V", b"[L;",
                b"[" * 256 + b"I", b"[" * 256 + b"Lx;", b"[" * 255, b"()V", b"(I)V", b"(I)", b")", b"I;", b"/", b"L" + b"x" * 65534]


def field_fault(rule, descriptor, offset):
    """The fault at a place of a field of Made().with_field with a name of one byte."""
    made = Made()
    made.with_field(b"f", descriptor)
    return made.field_at(rule, offset)


def field_rows():
    """Fields: their names, descriptors and attributes."""
    for descriptor in RIGHT_FIELDS:
        yield "field of %r" % descriptor[:9], Made().with_field(b"f", descriptor), ONE_TYPE
    for descriptor in WRONG_FIELDS:
        yield "field of %r, wrong" % descriptor[:9], Made().with_field(b"f", descriptor), field_fault("Descriptor", descriptor, 4)
    for name in (b"m", b"A", b"<init>", b"a.b;[/", b"\xc0\x80", b"n" * 65535):
        yield "field named %r" % name[:9], Made().with_field(name, b"I"), ONE_TYPE
    made = Made()
    yield "field without a name", made.with_field(b"", b"I"), made.field_at("EmptyName", 2)
    yield "field without a name and of no type", made.with_field(b"", b"V"), made.field_at("EmptyName", 2)
    made = Made()
    kind = made.pool.utf8(b"I")
    field = (made.m, kind, b"\0\0")
    yield "two fields alike", made.with_fields(field, field), ONE_TYPE
    yield "65535 fields", made.with_fields(*[field] * 65535), ONE_TYPE
    for index in (0, made.this, 255, 65535):
        rule = "WrongKind" if index == made.this else "BadIndex"
        yield ("field of the name %d" % index, made.with_fields(field, (index, kind, b"\0\0")),
               made.field_at(rule, 10, index))
        yield ("field of the descriptor %d" % index, made.with_fields(field, (made.m, index, b"\0\0")),
               made.field_at(rule, 12, index))
    yield from field_attribute_rows()


def field_attribute_rows():
    """Attributes of fields, and fields that are cut."""
    made = Made()
    kind = made.pool.utf8(b"I")
    note = attribute(made.note, b"abc")
    code = attribute(made.code, b"zz")
    boot = attribute(made.boot, b"")
    for what, rows, told in (("one", [note], ONE_TYPE), ("three", [note] * 3, ONE_TYPE), ("a Code", [code], ONE_TYPE),
                             ("two of Code", [code, note, code], ONE_TYPE), ("BootstrapMethods", [boot], ONE_TYPE),
                             ("BootstrapMethods last", [note, code, boot], ONE_TYPE),
                             ("two of BootstrapMethods", [boot, boot], ONE_TYPE),
                             ("one of no name", [attribute(0, b"")], ("BadIndex", 8, 0)),
                             ("one of a Class", [note, attribute(made.this, b"")], ("WrongKind", 17, made.this)),
                             ("one that is too long", [attribute(made.note, b"abc", 0x1000)], ("Cut", 14))):
        field = (made.m, kind, attributes(*rows))
        for front, more in (("", ()), ("the second ", ((made.m, kind, b"\0\0"),))):
            right = told
            if told is not ONE_TYPE:
                right = made.field_at(told[0], told[1] + 8 * len(more), *told[2:])
            yield front + "field's attributes: " + what, made.with_fields(*more, field), right
    content = attribute(made.code, code_content(b"\xb1", inner=attributes(boot)))
    yield "BootstrapMethods in the Code of a field", made.with_fields((made.m, kind, attributes(content))), ONE_TYPE
    yield "field of a count too many", made.with_fields((made.m, kind, u2(2) + note)), made.field_at("Cut", 23)
    whole = made.with_fields((made.m, kind, attributes(note)), (made.m, kind, b"\0\0"))
    for length in range(len(whole)):
        yield "fields, cut at %d" % length, whole[:length], Fault("Cut", None)


MEMBERS = [("staticfield", 178), ("staticfield", 179)]


def type_rows():
    """What a `new` may name."""
    made = Made()
    new = b"\xbb" + made.kind
    yield "new", made.with_code(new), text((0, "new"), target="o/W")
    yield "new twice", made.with_code(b"\0" + new + b"\0" + new), text((1, "new"), (5, "new"), target="o/W")
    for length in (1, 2):
        yield "new cut at %d" % length, made.with_code(b"\0" + new[:length]), made.at("CodeCut", 1)
    for entry, index in other_entries(made, made.kind):
        yield "new of " + entry, made.with_code(b"\xbb" + index), made.named_at(0, index)
    for name, told in ((b"[I", "%5BI"), (b"[[La/B;", "%5B%5BLa/B%3B"), (b"a.b", "a%2Eb"), (b"A", "A"), (b"a//", "a//")):
        made = Made(name)
        yield "new of %r" % name, made.with_code(b"\xbb" + made.kind), text((0, "new"), target=told)
    made = Made(b"")
    yield "new of no name", made.with_code(b"\xbb" + made.kind), made.at("EmptyName", 0)
    for opcode in (189, 192, 193):
        yield "opcode %d of a type of no name" % opcode, made.with_code(bytes([opcode]) + made.kind), NONE


def other_entries(made, good):
    """Entries of each kind by name, with the bytes of their indexes, but for the good one."""
    pool = made.pool
    pair = u2(pool.pair(b"x", b"I"))
    found = [("a Utf8", u2(made.m)), ("a Class", made.kind), ("a Fieldref", made.field), ("a Methodref", made.method),
             ("an InterfaceMethodref", made.face), ("a NameAndType", pair), ("a String", u2(pool.entry(8, made.m))),
             ("a MethodType", u2(pool.entry(16, made.void))), ("a Module", u2(pool.entry(19, made.m))),
             ("a Package", u2(pool.entry(20, made.m))), ("an Integer", u2(pool.raw(b"\3abcd"))),
             ("a Float", u2(pool.raw(b"\4abcd"))), ("a Dynamic", u2(pool.raw(b"\x11\0\0" + pair))),
             ("an InvokeDynamic", u2(pool.raw(b"\x12\0\0" + pair))), ("a MethodHandle", u2(pool.raw(b"\x0f\5" + made.method)))]
    for tag, what in ((5, "Long"), (6, "Double")):
        index = pool.raw(bytes([tag]) + b"abcdefgh", 1)
        found += [("a " + what, u2(index)), ("the second index of a " + what, u2(index + 1))]
    found += [("nothing", b"\0\0"), ("an index past the pool", u2(len(pool.parts) + 1)), ("the last index", b"\xff\xff")]
    return [(what, index) for what, index in found if index != good]


def static_rows():
    """What a `getstatic` and a `putstatic` may name."""
    for kind, opcode in MEMBERS:
        start = bytes([opcode])
        made = Made(b"o/W", b"go", b"I")
        site = start + made.field
        yield "opcode %d" % opcode, made.with_code(site), text((0, kind), target="o/W.goI")
        yield ("opcode %d twice" % opcode, made.with_code(b"\0" + site + site),
               text((1, kind), (4, kind), target="o/W.goI"))
        for length in (1, 2):
            yield "opcode %d cut at %d" % (opcode, length), made.with_code(b"\0" + site[:length]), made.at("CodeCut", 1)
        for entry, index in other_entries(made, made.field):
            yield "opcode %d of %s" % (opcode, entry), made.with_code(start + index), made.named_at(0, index)
        for descriptor in RIGHT_FIELDS[:-1]:
            made = Made(b"o", b"f", descriptor)
            told = descriptor.decode().replace(".", "%2E").replace("\u00e9", "%C3%A9")
            yield ("opcode %d of %r" % (opcode, descriptor[:9]), made.with_code(start + made.field),
                   text((0, kind), target="o.f" + told))
        for descriptor in WRONG_FIELDS:
            made = Made(b"o", b"f", descriptor)
            yield "opcode %d of %r, wrong" % (opcode, descriptor[:9]), made.with_code(start + made.field), made.at("Descriptor", 0)
            yield "no opcode %d of %r, wrong" % (opcode, descriptor[:9]), made.with_code(b"\xb4" + made.field), NONE
        for owner, name in ((b"", b"f"), (b"o", b""), (b"", b"")):
            made = Made(owner, name, b"I")
            yield "opcode %d of %r %r" % (opcode, owner, name), made.with_code(start + made.field), made.at("EmptyName", 0)
            yield "opcode 180 of %r %r" % (owner, name), made.with_code(b"\xb4" + made.field), NONE
        made = Made(b"[Lo.W;", b"<i/t>", b"[La/b-$_%;")
        yield ("opcode %d, escapes" % opcode, made.with_code(start + made.field),
               text((0, kind), target="%5BLo%2EW%3B.%3Ci%2Ft%3E[La/b-$_%25;"))
    yield from mixed_rows()


def mixed_rows():
    """Sites of several kinds, entries whose indexes are no opcodes, and references that share a descriptor."""
    made = Made()
    made.pool.parts += [made.pool.parts[made.m - 1]] * (250 - len(made.pool.parts))
    pair = made.pool.pair(b"f", b"I")
    kind = made.pool.class_entry(made.m)
    field = made.pool.entry(9, kind, pair)
    yield "new of the entry 254", made.with_code(b"\xbb" + u2(kind)), text((0, "new"), target="m")
    for name, opcode in MEMBERS:
        yield "opcode %d of the entry 255" % opcode, made.with_code(bytes([opcode]) + u2(field)), text((0, name), target="m.fI")
    made = Made(b"o", b"f", b"I")
    yield "a method reference of I", made.with_code(b"\xb8" + made.method), made.at("Descriptor", 0)
    yield ("a method reference of I after its field", made.with_code(b"\xb2" + made.field + b"\xb8" + made.method),
           made.at("Descriptor", 3))
    made = Made(b"o", b"f", b"()I")
    yield ("a field reference of ()I after its method", made.with_code(b"\xb8" + made.method + b"\xb2" + made.field),
           made.at("Descriptor", 3))
    made = Made()
    number = u2(made.pool.entry(9, made.this, made.pool.pair(b"x", b"J")))
    code = b"\xbb" + made.kind + b"\x59\xb2" + number + b"\xb7" + made.method + b"\xb3" + number + b"\xbb" + u2(made.this)
    told = ["0 new o/W", "4 staticfield A.xJ", "7 special o/W.go(I)V", "10 staticfield A.xJ", "13 new A"]
    yield "sites of several kinds", made.with_code(code), "".join("site A.m()V %s\n" % row for row in told) + "sites 5\n"


def module_rows():
    """The rows of one class file again, as modules, which are refused alike and print nothing."""
    for make in (instruction_rows, call_rows, attribute_rows, field_rows, type_rows, static_rows):
        for what, data, told in make():
            yield "module: " + what, as_module(data), told if isinstance(told, Fault) else NO_TYPE
    made = Made()
    body = made.with_code(b"\xb8" + made.method)
    module = as_module(body)
    here = text((0, "static"))
    yield "a module, then a class", bundle_of(module, body), (here, "type A\nmethod m()V\ntypes 1 methods 1\n")
    yield "a class between modules", bundle_of(module, body, module), (here, "type A\nmethod m()V\ntypes 1 methods 1\n")
    yield "three modules", bundle_of(module, module, module), NO_TYPE
    yield "a class, then a module with a byte more", bundle_of(body, module + b"\0"), Fault("Trailing", len(module), entry=1)


def attribute_rows():
    """Attributes and the parts of a Code attribute."""
    made = Made()
    call = b"\xb8" + made.method
    code = attribute(made.code, code_content(call))
    note = attribute(made.note, b"abc")
    boot = attribute(made.boot, b"\0\0")
    content = code_content(call, b"x" * 16, attributes(note, attribute(made.code, b"zz")))
    yield "rows and attributes inside", made.with_content(content), text((0, "static"))
    # the sizes, the code, two rows, and two attributes of three and two bytes
    starts = [0, 2, 4, 8, 11, 13, 21, 29, 31, 33, 37, 40, 42, 46]
    for length in range(len(content)):
        cut = made.content("Cut", item_at(starts, length))
        yield "content cut at %d" % length, made.with_content(content[:length]), cut
        yield "attribute of length %d" % length, made.with_rows(attribute(made.code, content, length)), cut
    yield "content with one byte more", made.with_content(content + b"\0"), made.content("Trailing", len(content))
    yield "two of Code", made.with_rows(code, code), made.content("DoubleCode", len(code) - 6)
    yield "two of Code, parted", made.with_rows(code, note, code), made.content("DoubleCode", len(code + note) - 6)
    yield ("two of Code, the second too long", made.with_rows(code, attribute(made.code, b"", 0xFFFFFFFF)),
           made.content("DoubleCode", len(code) - 6))
    yield "two of Code, the first broken", made.with_rows(attribute(made.code, b""), code), made.content("Cut", 0)
    yield "Code last", made.with_rows(note, note, code), text((0, "static"))
    yield "empty Code", made.with_rows(attribute(made.code, b"")), made.content("Cut", 0)
    yield "Code of the class", made.with_rows(more=attributes(attribute(made.code, b"zz"), attribute(made.code, b""))), NONE
    yield "BootstrapMethods of the class", made.with_rows(code, more=attributes(boot)), text((0, "static"))
    yield "BootstrapMethods of a method", made.with_rows(code, boot), text((0, "static"))
    yield "BootstrapMethods in Code", made.with_code(call, inner=attributes(note, boot)), text((0, "static"))
    nested = attribute(made.code, code_content(call, inner=attributes(boot)))
    yield "BootstrapMethods in Code in Code", made.with_code(b"\xb1", inner=attributes(nested)), NONE
    yield "attribute inside without a name", made.with_code(call, inner=attributes(attribute(0, b""))), made.content("BadIndex", 15, 0)
    yield ("attribute inside of a Class", made.with_code(call, inner=attributes(attribute(made.this, b""))),
           made.content("WrongKind", 15, made.this))
    inner = attributes(attribute(made.note, b"abc", 4))
    yield "attribute past the content", made.with_rows(attribute(made.code, code_content(call, inner=inner)), note), made.content("Cut", 21)
    yield "code of no bytes", made.with_code(b""), made.content("CodeLength", 4)
    yield "code of 65535 bytes", made.with_code(bytes(65535)), NONE
    yield "code of 65536 bytes", made.with_code(bytes(65536)), made.content("CodeLength", 4)
    yield "code length past the file, and above 65535", made.with_code(call, length=0xFFFFFFFF), made.content("CodeLength", 4)
    yield ("attributes past the content", made.with_content(code_content(call)[:-4] + u2(1) + b"x" * 7 + b"\0\0"),
           made.content("Cut", 21))
    yield ("rows past the content", made.with_content(code_content(call)[:-4] + u2(2) + b"x" * 15),
           made.content("Cut", 21))
    yield "65535 rows", made.with_code(call, rows=b"\xff" * 8 * 65535), text((0, "static"))
    yield "code length past the content", made.with_code(call, length=8), made.content("Cut", 8)


def past(entry, last, *earlier):
    """The fault of the last of several class files of bundle_of, the sites of which are too many for the bundle."""
    return of_bundle("ManySites", len(bundle_of(*earlier, last)) - len(last), entry)


def limit_rows():
    """The numbers of sites."""
    front = "site A.AAA()V 0 static A.a()V\n"
    yield "a million", calls(1000000), 1000000
    # the last instruction has three bytes, and counts of rows and attributes follow
    many = calls(1000001)
    yield "a million and one", many, Fault("ManySites", len(many) - 9)
    yield "four million", bundle_of(*[calls(1000000)] * 4), 4000000
    yield "four million and one", bundle_of(*[calls(1000000)] * 4, calls(1)), past(4, calls(1), *[calls(1000000)] * 4)
    yield "two classes", bundle_of(calls(1), calls(1)), front * 2 + "sites 2\n"
    million = as_module(calls(1000000))
    yield "a million of a module", million, NO_TYPE
    yield "a million and one of a module", as_module(many), Fault("ManySites", len(many) - 9)
    yield "five modules of a million", bundle_of(*[million] * 5), NO_TYPE
    yield "four million, and a module of a million", bundle_of(*[calls(1000000)] * 4, million), 4000000
    yield "four million after a module of a million", bundle_of(million, *[calls(1000000)] * 4), 4000000
    yield "four million and one after a module", bundle_of(million, *[calls(1000000)] * 4, calls(1)), past(5, calls(1), *[million] * 5)
    yield from other_limit_rows()
    yield "no class", bundle_of(), NONE
    made = Made()
    yield ("a class that is refused after one with a site", bundle_of(calls(1), made.with_code(b"\xff")),
           made.at("BadOpcode", 0)._replace(entry=1))


def other_limit_rows():
    """The numbers of sites of `new` and of static fields."""
    made = Made(b"o", b"f", b"I")
    names = [made.pool.utf8(b"m%d" % number) for number in range(50)]
    for what, site in (("new", b"\xbb" + made.kind), ("getstatic", b"\xb2" + made.field), ("putstatic", b"\xb3" + made.field)):
        whole = attributes(attribute(made.code, code_content(site * 20000)))
        one = attributes(attribute(made.code, code_content(site)))
        methods = [(name, made.void, whole) for name in names]
        yield "a million of " + what, class_file(made.pool, made.this, methods), 1000000
        more = methods + [(made.m, made.void, one)]
        data = class_file(made.pool, made.this, more)
        yield "a million and one of " + what, data, Fault("ManySites", len(data) - 9)


def other_rows():
    """Several methods."""
    made = Made()
    pool = made.pool
    code = attributes(attribute(made.code, code_content(b"\0\xb8" + made.method + b"\xb7" + made.method)))
    methods = [(made.m, made.void, code), (pool.utf8(b"<init>"), made.void, b"\0\0"),
               (pool.utf8(b"b.c"), pool.utf8(b"(J)[La;"), code)]
    lines = ["site A.%s %d %s o/W.go(I)V\n" % row for row in (
        ("m()V", 1, "static"), ("m()V", 4, "special"), ("b%2Ec(J)[La;", 1, "static"), ("b%2Ec(J)[La;", 4, "special"))]
    yield "three methods", class_file(pool, made.this, methods), "".join(lines) + "sites 4\n"
    nameless = [(pool.utf8(b""), made.void, code)]
    data = class_file(pool, made.this, methods + nameless)
    row = len(data) - 8 - len(code)
    yield "a method without a name", data, Fault("EmptyName", row + 2)
    data = class_file(pool, made.this, methods + [(made.m, pool.utf8(b"I"), code)])
    yield "a method of a field's descriptor", data, Fault("Descriptor", len(data) - 8 - len(code) + 4)
    data = class_file(pool, made.this, methods + methods[:1])
    yield "the same method twice", data, Fault("DoubleMethod", len(data) - 8 - len(code))
    other = pool.utf8(b"()V")
    data = class_file(pool, made.this, methods + [(made.m, other, u2(9))])
    yield "the same method twice, by another entry, and then cut", data, Fault("DoubleMethod", len(data) - 10)
    yield "a class of ninety bytes", SMALL, "site p/A.m()V 0 static p/A.m()V\nsites 1\n"
    yield "a module", SMALL.replace(bytes.fromhex("00210002"), bytes.fromhex("80210002")), NO_TYPE
    yield "a module by its flag alone", SMALL.replace(bytes.fromhex("00210002"), bytes.fromhex("80000002")), NO_TYPE
    for length in range(len(SMALL)):
        yield "the same, cut at %d" % length, SMALL[:length], Fault("Cut", item_at(ITEMS_OF_SMALL, length))


def changed(place, value):
    """SMALL with one byte changed."""
    return SMALL[:place] + bytes([value]) + SMALL[place + 1:]


def rule_rows():
    """Class files of ninety and of fifty-three bytes with single bytes changed, and the order of two faults."""
    for length, place in enumerate([0] * 4 + [4, 4, 6, 6, 8, 8, 10, 11, 11, 13, 14, 15, 15, 17, 18, 18] + [20] * 16 + [36, 37, 37]):
        yield "the smallest, cut at %d" % length, SMALLEST[:length], Fault("Cut", place)
    for length in range(39, 53):
        yield "the smallest, cut at %d" % length, SMALLEST[:length], Fault("Cut", length if length % 2 else length - 1)
    yield "the smallest", SMALLEST, (NONE, "type I\ntypes 1 methods 0\n")
    yield "the smallest and a byte", SMALLEST + b"\0", Fault("Trailing", 53)
    yield "the other and a byte", SMALL + b"\0", Fault("Trailing", 90)
    for place, value, told in (
            (0, 0xCB, Fault("Magic", 0)), (3, 0, Fault("Magic", 0)), (7, 0x42, Fault("Version", 6)), (7, 44, Fault("Version", 6)),
            (6, 1, Fault("Version", 6)), (22, 0, Fault("BadUtf8", 22, 3)), (28, 0x58, Fault("Descriptor", 62)),
            (49, 1, Fault("WrongKind", 48, 1)), (49, 0, Fault("BadIndex", 48)), (49, 8, Fault("BadIndex", 48, 8)),
            (51, 1, Fault("WrongKind", 50, 1)), (51, 9, Fault("BadIndex", 50, 9)), (61, 2, Fault("WrongKind", 60, 2)),
            (63, 0, Fault("BadIndex", 62)), (63, 3, Fault("Descriptor", 62)), (67, 5, Fault("WrongKind", 66, 5)),
            (76, 1, Fault("CodeLength", 76)), (79, 0, Fault("CodeLength", 76)), (79, 5, Fault("Cut", 87)),
            (79, 3, Fault("Cut", 85)), (79, 1, Fault("CodeCut", 80)), (80, 0xCA, Fault("BadOpcode", 80)),
            (82, 5, Fault("WrongKind", 80, 5)), (82, 0, Fault("BadIndex", 80)), (80, 0xBB, Fault("WrongKind", 80, 6)),
            (80, 0xB2, Fault("WrongKind", 80, 6)), (80, 0xAA, Fault("CodeCut", 80)), (80, 0xC4, Fault("BadWide", 80)),
            (80, 0xBA, Fault("CodeCut", 80)), (71, 15, Fault("Cut", 86)), (71, 17, Fault("Trailing", 88)),
            (71, 19, Fault("Cut", 72)), (10, 2, Fault("BadTag", 10, 1)), (16, 13, Fault("BadTag", 16, 2)),
            (16, 14, Fault("BadTag", 16, 2)), (16, 0, Fault("BadTag", 16, 2)), (16, 21, Fault("BadTag", 16, 2)),
            (18, 2, Fault("WrongKind", 16, 2)), (18, 0, Fault("BadIndex", 16, 2)), (18, 8, Fault("BadIndex", 16, 2)),
            (36, 6, Fault("WrongKind", 34, 6)), (38, 3, Fault("WrongKind", 34, 6)), (33, 2, Fault("WrongKind", 29, 5)),
            (9, 7, Fault("BadIndex", 41, 0x0443)), (9, 1, Fault("BadIndex", 12, 0x0370)), (9, 0, Fault("BadIndex", 12, 0x0370)), (15, 0x80, Fault("BadUtf8", 15, 1)),
            (15, 0xC3, Fault("BadUtf8", 15, 1)), (13, 0xC3, Fault("BadUtf8", 13, 1)), (13, 0xE0, Fault("BadUtf8", 13, 1)),
            (13, 0xF0, Fault("BadUtf8", 13, 1)), (89, 1, Fault("Cut", 90))):
        yield "byte %d is %d" % (place, value), changed(place, value), told
    yield from pool_rows()
    yield from name_rows()


def class_of(pool_parts, count=None, rest=bytes.fromhex("0021000200000000000000000000"), version=52):
    """A class file of entries after `A` and its Class, and its pool's count."""
    parts = [b"\1\0\1A", b"\7\0\1"] + list(pool_parts)
    number = len(parts) + 1 if count is None else count
    return b"\xca\xfe\xba\xbe\0\0" + u2(version) + u2(number) + b"".join(parts) + rest


def pool_rows():
    """Faults of the pool; the third entry begins at the byte 17."""
    a = NONE, "type A\ntypes 1 methods 0\n"
    for version in (45, 46, 64, 65):
        yield "version %d" % version, class_of([], version=version), a
    for version in (0, 44, 66, 300):
        yield "version %d" % version, class_of([], version=version), Fault("Version", 6)
    yield "a count of 0", class_of([])[:8] + bytes.fromhex("0000" "0021000200000000000000000000"), Fault("BadIndex", 12, 2)
    yield "a count of 1", class_of([])[:8] + bytes.fromhex("0001" "0021000200000000000000000000"), Fault("BadIndex", 12, 2)
    for tag in (5, 6):
        wide = bytes([tag]) + b"abcdefgh"
        yield "tag %d" % tag, class_of([wide], 5), a
        yield "tag %d last" % tag, class_of([wide], 4), Fault("BadIndex", 17, 3)
        yield "tag %d last, after a bad Class" % tag, class_of([b"\7\0\2", wide], 5), Fault("WrongKind", 17, 3)
        yield "tag %d last, after a good Class" % tag, class_of([b"\7\0\1", wide], 5), Fault("BadIndex", 20, 4)
        yield "tag %d, its second index" % tag, class_of([wide, b"\7\0\4"], 6), Fault("BadIndex", 26, 5)
        yield "tag %d, its first index" % tag, class_of([wide, b"\7\0\3"], 6), Fault("WrongKind", 26, 5)
        for length in range(9):
            yield "tag %d cut at %d" % (tag, length), class_of([wide[:length]], 5, b""), Fault("Cut", 18 if length else 17)
    for tag in (3, 4):
        yield "tag %d" % tag, class_of([bytes([tag]) + b"abcd"]), a
        for length in range(1, 5):
            yield "tag %d cut at %d" % (tag, length), class_of([bytes([tag]) + b"abc"[:length - 1]], rest=b""), Fault("Cut", 18)
    for tag in (7, 8, 16, 19, 20):
        yield "tag %d" % tag, class_of([bytes([tag]) + b"\0\1"]), a
        for index, rule in ((0, "BadIndex"), (2, "WrongKind"), (3, "WrongKind"), (4, "BadIndex"), (65535, "BadIndex")):
            yield "tag %d of %d" % (tag, index), class_of([bytes([tag]) + u2(index)]), Fault(rule, 17, 3)
        yield "tag %d cut" % tag, class_of([bytes([tag]) + b"\0"], rest=b""), Fault("Cut", 18)
    # 3 is a NameAndType, 4 a Fieldref, 5 a Methodref, 6 an InterfaceMethodref; the seventh entry begins at the byte 37
    some = [b"\x0c\0\1\0\1"] + [bytes([tag]) + b"\0\2\0\3" for tag in (9, 10, 11)]
    yield "references", class_of(some), a
    for tag in (9, 10, 11):
        for first, second, rule in ((0, 3, "BadIndex"), (1, 3, "WrongKind"), (2, 2, "WrongKind"), (2, 0, "BadIndex"), (2, 8, "BadIndex"),
                                    (1, 0, "WrongKind"), (0, 2, "BadIndex")):
            yield "tag %d of %d and %d" % (tag, first, second), class_of(some + [bytes([tag]) + u2(first) + u2(second)]), Fault(rule, 37, 7)
        yield "tag %d cut" % tag, class_of(some + [bytes([tag]) + b"\0\2\0"], rest=b""), Fault("Cut", 40)
        yield "tag %d cut early" % tag, class_of(some + [bytes([tag]) + b"\0"], rest=b""), Fault("Cut", 38)
    for first, second, rule in ((1, 2, "WrongKind"), (2, 1, "WrongKind"), (1, 0, "BadIndex"), (0, 2, "BadIndex")):
        yield "a pair of %d and %d" % (first, second), class_of(some + [b"\x0c" + u2(first) + u2(second)]), Fault(rule, 37, 7)
    for tag in (17, 18):
        yield "tag %d" % tag, class_of(some + [bytes([tag]) + b"\xff\xff\0\3"]), a
        yield "tag %d of a Class" % tag, class_of(some + [bytes([tag]) + b"\0\0\0\2"]), Fault("WrongKind", 37, 7)
        yield "tag %d of nothing" % tag, class_of(some + [bytes([tag]) + b"\0\0\0\0"]), Fault("BadIndex", 37, 7)
    for kind in range(12):
        right = {1: (4,), 2: (4,), 3: (4,), 4: (4,), 5: (5,), 6: (5, 6), 7: (5, 6), 8: (5,), 9: (6,)}.get(kind, ())
        for index in range(7):
            rule = "BadIndex" if index == 0 and right else "WrongKind"
            told = a if index in right else Fault(rule, 37, 7)
            yield "a handle of kind %d and %d" % (kind, index), class_of(some + [b"\x0f" + bytes([kind]) + u2(index)]), told
    for length in range(3):
        data = class_of(some + [b"\x0f\5\0"[:length]], 8, b"")
        yield "a handle cut at %d" % length, data, Fault("Cut", (37, 38, 39)[length])
    yield "a bad tag after a bad index", class_of([b"\7\0\0", b"\2"]), Fault("BadTag", 20, 4)
    yield "a bad text after a bad index", class_of([b"\7\0\0", b"\1\0\2a\0"]), Fault("BadUtf8", 24, 4)
    yield "two bad indexes", class_of([b"\7\0\2", b"\7\0\0"]), Fault("WrongKind", 17, 3)
    yield "a bad index and a bad class", class_of([b"\7\0\2"], rest=bytes(14)), Fault("WrongKind", 17, 3)
    for word, bad in ((b"\xc3", 0), (b"a\xc3b", 1), (b"\xc3\xa9\xe2\x82", 2), (b"\xe2\x82\xac\xe2\x82a", 3), (b"a\x80", 1), (b"\xf4\x8f\xbf\xbf", 0),
                      (b"ab\0", 2)):
        yield "the text %r" % word, class_of([b"\1" + u2(len(word)) + word]), Fault("BadUtf8", 20 + bad, 3)


def name_rows():
    """Names that are empty: of the class, its superclass, an interface, a method; and two faults of one class."""
    empty = [b"\1\0\0", b"\7\0\3"]
    yield "a class of no name", class_of(empty, rest=bytes.fromhex("0021000400000000000000000000")), Fault("EmptyName", 25)
    yield "a superclass of no name", class_of(empty, rest=bytes.fromhex("0021000200040000000000000000")), Fault("EmptyName", 27)
    yield "an interface of no name", class_of(empty, rest=bytes.fromhex("002100020000000200020004" "000000000000")), Fault("EmptyName", 33)
    yield "an interface of no index", class_of(empty, rest=bytes.fromhex("002100020002000200000004" "000000000000")), Fault("BadIndex", 31)
    yield "a module of no name", class_of(empty, rest=bytes.fromhex("8000000400000000000000000000")), Fault("EmptyName", 25)
    yield "no superclass", class_of(empty), (NONE, "type A\ntypes 1 methods 0\n")
    row = bytes.fromhex("0021000200000000" "0000" "0001" "0000" "0003")
    yield "a method of no name and no descriptor", class_of(empty, rest=row), Fault("EmptyName", 37)
    row = bytes.fromhex("0021000200000000" "0000" "0001" "0000" "0001" "0003" "0000" "0000")
    yield "a method of an empty descriptor", class_of(empty, rest=row), Fault("Descriptor", 39)


class Linked(Made):
    """As Made, with InvokeDynamic entries, and handles of each kind; a Long takes two indexes."""

    def __init__(self, owner=b"o/W", name=b"go", descriptor=b"(I)V"):
        super().__init__(owner, name, descriptor)
        pool = self.pool
        named = {kind: self.field for kind in (1, 2, 3, 4)}
        named.update({kind: self.method for kind in (5, 6, 7, 8)})
        named[9] = self.face
        self.handles = {kind: pool.raw(b"\x0f" + bytes([kind]) + index) for kind, index in named.items()}
        self.faces = {kind: pool.raw(b"\x0f" + bytes([kind]) + self.face) for kind in (6, 7)}
        self.long = pool.raw(b"\5abcdefgh", 1)
        self.type = pool.entry(16, self.void)
        # a handle that can't be told from others by what its kind may name, and one of no name
        self.good = pool.raw(b"\x0f\6" + u2(pool.called(b"x/Y", b"b", b"()V")))
        self.nameless = pool.raw(b"\x0f\6" + u2(pool.called(b"x/Y", b"", b"()V")))
        self.shapeless = pool.raw(b"\x0f\6" + u2(pool.called(b"x/Y", b"b", b"()")))
        # an owner, a name and a descriptor that are never looked at
        self.field_handle = pool.raw(b"\x0f\1" + u2(pool.called(b"", b"", b"()", 9)))

    def dynamic(self, row, name=b"", descriptor=b"x"):
        """An `invokedynamic` of a row, with a name and a descriptor that aren't looked at; its last bytes are no zeros."""
        return b"\xba" + u2(self.pool.entry(18, row, self.pool.pair(name, descriptor))) + b"\xff\xca"

    def linked(self, code, *rows, before=(), after=(), tail=b""):
        """The class file of the method with this code, and of the rows among other attributes of the class."""
        content = u2(len(rows)) + b"".join(u2(row[0]) + u2(len(row) - 1) + b"".join(map(u2, row[1:])) for row in rows)
        more = attributes(*before, attribute(self.boot, content), *after)
        return self.with_rows(attribute(self.code, code_content(code)), more=more) + tail


def handles(*rows):
    """The text of sites of the method: each row is a place, a kind, and what is named."""
    return "".join("site A.m()V %d handle%d %s\n" % row for row in rows) + "sites %d\n" % len(rows)


GOOD = "x/Y.b()V"


def linked_rows():
    """Bootstrap methods, handles and `invokedynamic`."""
    for make in (lambda_rows, handle_rows, operand_rows, row_rows, argument_rows, table_rows, order_rows, place_rows):
        yield from make()
    for make in (lambda_rows, handle_rows, operand_rows, row_rows, argument_rows, table_rows, order_rows, place_rows):
        for what, data, told in make():
            if data[:4] != b"FCGB" and u2(FLAGS) + u2(2) in data:
                yield "module: " + what, as_module(data), told if isinstance(told, Fault) else NO_TYPE


def lambda_rows():
    """A method that makes an object of a lambda: a bootstrap method, and a handle between two method types."""
    pool = Pool()
    this = pool.named(b"p/L")
    void, code = pool.utf8(b"()V"), pool.utf8(b"Code")
    main, body = pool.utf8(b"main"), pool.utf8(b"lambda$main$0")
    word = pool.utf8(b"BootstrapMethods")
    maker = pool.raw(b"\x0f\6" + u2(pool.called(b"java/lang/invoke/LambdaMetafactory", b"metafactory", b"()V")))
    own = pool.raw(b"\x0f\6" + u2(pool.entry(10, this, pool.entry(12, body, void))))
    kind = pool.entry(16, void)
    site = pool.entry(18, 0, pool.pair(b"run", b"()Ljava/lang/Runnable;"))
    rows = u2(1) + u2(maker) + u2(3) + u2(kind) + u2(own) + u2(kind)
    methods = [(main, void, attributes(attribute(code, code_content(b"\xba" + u2(site) + b"\0\0\xb1")))), (body, void, b"\0\0")]
    yield ("a lambda", class_file(pool, this, methods, attributes=attributes(attribute(word, rows))),
           ("site p/L.main()V 0 handle6 java/lang/invoke/LambdaMetafactory.metafactory()V\n"
            "site p/L.main()V 0 handle6 p/L.lambda$main$0()V\nsites 2\n",
            "type p/L\nmethod main()V\nmethod lambda$main$0()V\ntypes 1 methods 2\n"))


def handle_rows():
    """Handles of each kind, as a bootstrap method's and as an argument, good and with a broken reference."""
    made = Linked()
    target = "o/W.go(I)V"
    for kind, index in [*made.handles.items(), *made.faces.items()]:
        told = [(0, kind, target)] if kind > 4 else []
        yield "a bootstrap handle of kind %d" % kind, made.linked(made.dynamic(0), (index,)), handles(*told)
        told = [(0, 6, GOOD)] + told
        yield "an argument of kind %d" % kind, made.linked(made.dynamic(0), (made.good, index)), handles(*told)
    for owner, name, descriptor in ((b"", b"go", b"()V"), (b"o", b"", b"()V"), (b"o", b"go", b""), (b"o", b"go", b"I"),
                                    (b"", b"go", b""), (b"o", b"", b"I"), (b"o", b"go", b"(" + b"J" * 128 + b")V")):
        made = Linked(owner, name, descriptor)
        rule = "Descriptor" if owner and name else "EmptyName"
        for kind, index in made.handles.items():
            for what, row in (("bootstrap handle", (index,)), ("argument", (made.good, made.type, index))):
                data = made.linked(b"\0" + made.dynamic(0), row)
                told = made.at(rule, 1) if kind > 4 else handles(*[(1, 6, GOOD)] * (what == "argument"))
                yield "%s of kind %d of %r %r %r" % (what, kind, owner, name, descriptor[:9]), data, told
                unused = made.linked(b"\0" + made.dynamic(1), row, (made.good,))
                yield "an unused one of kind %d of %r %r %r" % (kind, owner, name, descriptor[:9]), unused, handles((1, 6, GOOD))
    made = Linked(b"[Lo.W;", b"<i/t>", b"([La/b-$_;)La%;")
    yield ("escapes of a handle", made.linked(made.dynamic(0), (made.handles[9],)),
           handles((0, 9, "%5BLo%2EW%3B.%3Ci%2Ft%3E([La/b-$_;)La%25;")))


def operand_rows():
    """What an `invokedynamic` names, its length, and its place among other sites."""
    made = Linked()
    for entry, index in other_entries(made, None):
        if entry == "an InvokeDynamic":
            continue
        data = made.linked(b"\0\xba" + index + b"\0\0", (made.good,))
        yield "an invokedynamic of " + entry, data, made.named_at(1, index)
    site = made.dynamic(0)
    for length in range(1, 5):
        data = made.linked(b"\0" + site[:length], (made.good,))
        yield "an invokedynamic cut at %d" % length, data, made.at("CodeCut", 1)
        data = made.linked(b"\0\xba\0\0\0\0"[:length + 1], (made.good,))
        yield "an invokedynamic of nothing, cut at %d" % length, data, made.at("CodeCut", 1)
    for name, descriptor in ((b"", b"()V"), (b"run", b""), (b"<", b"I"), (b"run", b"()V")):
        data = made.linked(made.dynamic(0, name, descriptor), (made.good,))
        yield "an invokedynamic of the name %r and type %r" % (name, descriptor), data, handles((0, 6, GOOD))
    call = b"\xb8" + made.method
    code = call + site + b"\0" + call + site + made.dynamic(1) + call
    told = ["0 static o/W.go(I)V", "3 handle6 x/Y.b()V", "3 handle9 o/W.go(I)V", "9 static o/W.go(I)V", "12 handle6 x/Y.b()V",
            "12 handle9 o/W.go(I)V", "17 handle5 o/W.go(I)V", "22 static o/W.go(I)V"]
    yield ("sites among calls", made.linked(code, (made.good, made.handles[9]), (made.handles[5],)),
           "".join("site A.m()V %s\n" % row for row in told) + "sites 8\n")
    yield "a byte 186 that is no opcode", made.linked(b"\x10\xba", (made.good,)), NONE
    pool = made.pool
    first = attributes(attribute(made.code, code_content(made.dynamic(1))))
    second = attributes(attribute(made.code, code_content(b"\0" + made.dynamic(0))))
    methods = [(made.m, made.void, first), (pool.utf8(b"n"), made.void, b"\0\0"), (pool.utf8(b"k"), made.void, second)]
    content = u2(2) + u2(made.good) + u2(0) + u2(made.handles[8]) + u2(0)
    yield ("sites of two methods", class_file(pool, made.this, methods, attributes=attributes(attribute(made.boot, content))),
           "site A.m()V 0 handle8 o/W.go(I)V\nsite A.k()V 1 handle6 x/Y.b()V\nsites 2\n")


def row_rows():
    """Rows that are there or not, and what the first index of a row names."""
    made = Linked()
    good = (made.good,)
    for count in range(3):
        rows = [good] * count
        for number in (count, count + 1, 65535):
            data = made.linked(b"\0" + made.dynamic(number), *rows)
            yield "the row %d of %d" % (number, count), data, made.at("Bootstrap", 1)
        for number in range(count):
            yield "the row %d of %d" % (number, count), made.linked(b"\0" + made.dynamic(number), *rows), handles((1, 6, GOOD))
    rows = [good] * 257 + [(made.handles[9],)] + [good] * 2
    yield "the row 257 of 260", made.linked(made.dynamic(257), *rows), handles((0, 9, "o/W.go(I)V"))
    yield "the row 259 of 260", made.linked(made.dynamic(259), *rows), handles((0, 6, GOOD))
    data = made.linked(made.dynamic(260), *rows)
    yield "the row 260 of 260", data, made.at("Bootstrap", 0)
    code = b"\0" + made.dynamic(0)
    data = made.with_code(code)
    yield "no rows at all", data, made.at("Bootstrap", 1)
    for entry, index in other_entries(made, None):
        number = int.from_bytes(index, "big")
        if entry == "a MethodHandle":
            told = handles((1, 5, "o/W.go(I)V"))
            yield "a row of " + entry, made.linked(code, (number,)), told
            continue
        data = made.linked(code, (number,))
        yield "a row of " + entry, data, made.named_at(1, index)
        data = made.linked(code, (number, 0, made.nameless))
        yield "a row of %s and of bad arguments" % entry, data, made.named_at(1, index)
        data = made.linked(code, good, (number, 0))
        yield "an unused row of " + entry, data, handles((1, 6, GOOD))


def argument_rows():
    """What the arguments of a row name."""
    made = Linked()
    code = b"\0" + made.dynamic(0)
    for entry, index in other_entries(made, None):
        number = int.from_bytes(index, "big")
        data = made.linked(code, (made.good, number, made.good))
        fault = made.named_at(1, index)
        told = handles((1, 6, GOOD), (1, 6, GOOD)) if fault.rule == "WrongKind" else fault
        if entry == "a MethodHandle":
            told = handles((1, 6, GOOD), (1, 5, "o/W.go(I)V"), (1, 6, GOOD))
        yield "an argument that is " + entry, data, told
    data = made.linked(code, (made.good, made.long + 1))
    yield "an argument of the second index of a Long", data, made.at("BadIndex", 1, made.long + 1)
    some = [made.type, made.this, made.m, made.long, made.field_handle]
    data = made.linked(code, (made.field_handle, *some, made.handles[7], *some, made.good))
    yield "handles among other arguments", data, handles((1, 7, "o/W.go(I)V"), (1, 6, GOOD))
    data = made.linked(code, (made.good,) + (made.type,) * 65535)
    yield "65535 arguments", data, handles((1, 6, GOOD))
    data = made.linked(code, (made.good,) + (made.type,) * 65534 + (0,))
    yield "65535 arguments, the last of nothing", data, made.at("BadIndex", 1)


def table_rows():
    """The content of BootstrapMethods, cut at each length and with bytes after it."""
    made = Linked()
    code = attribute(made.code, code_content(b"\xb1"))
    content = u2(2) + u2(made.good) + u2(2) + u2(made.type) + u2(0) + u2(0) + u2(0)
    starts = [0, 2, 4, 6, 8, 10, 12]

    def told(data, rule, offset):
        """A fault at a place of the content, which is the last part of the file."""
        return Fault(rule, len(data) - len(content) + offset)

    whole = made.with_rows(code, more=attributes(attribute(made.boot, content)))
    yield "rows that none uses", whole, NONE
    for length in range(len(content)):
        data = made.with_rows(code, more=attributes(attribute(made.boot, content[:length])))
        yield "rows cut at %d" % length, data, Fault("Cut", len(data) - length + item_at(starts, length))
        data = made.with_rows(code, more=attributes(attribute(made.boot, content, length)))
        yield "rows of a length of %d" % length, data, told(data, "Cut", item_at(starts, length))
        yield "rows, the file cut at %d" % length, whole[:len(whole) - len(content) + length], told(whole, "Cut", 0)
    for length in (len(content) + 1, 0xFFFFFFFF):
        data = made.with_rows(code, more=attributes(attribute(made.boot, content, length)))
        yield "rows of a length of %d" % length, data, told(data, "Cut", 0)
    for more in (1, 2, 100):
        data = made.with_rows(code, more=attributes(attribute(made.boot, content + bytes(more))))
        yield "rows and %d bytes" % more, data, Fault("Trailing", len(data) - more)
    data = made.with_rows(code, more=attributes(attribute(made.boot, u2(0) + b"\0")))
    yield "no rows and a byte", data, Fault("Trailing", len(data) - 1)
    yield "no rows", made.with_rows(code, more=attributes(attribute(made.boot, u2(0)))), NONE
    for count, row in ((65535, content[2:]), (3, content[2:])):
        data = made.with_rows(code, more=attributes(attribute(made.boot, u2(count) + row)))
        yield "a count of %d rows" % count, data, Fault("Cut", len(data))
    data = made.with_rows(code, more=attributes(attribute(made.boot, u2(1) + u2(made.good) + u2(65535) + bytes(9))))
    yield "65535 arguments in nine bytes", data, Fault("Cut", len(data) - 1)
    data = made.with_rows(code, more=attributes(attribute(made.boot, u2(65535) + bytes(4 * 65535))))
    yield "65535 rows", data, NONE


def order_rows():
    """Two faults, of which one is told."""
    made = Linked()
    site, missing = made.dynamic(0), made.dynamic(7)
    good, bad = (made.good,), (made.good, 0)
    tail = attribute(made.boot, u2(0))
    code = b"\0" + missing + site
    data = made.linked(code, good, tail=b"\0")
    yield "a missing row, and a byte after the file", data, made.at("Bootstrap", 1)
    data = made.linked(b"\0" + site, bad, tail=b"\0")
    yield "a broken row, and a byte after the file", data, made.at("BadIndex", 1)
    data = made.linked(b"\0" + site, good, tail=b"\0")
    yield "a good row, and a byte after the file", data, Fault("Trailing", len(data) - 1)
    data = made.linked(code, good, after=[tail])
    yield "a missing row, and a second table", data, Fault("Bootstrap", len(data) - 8)
    data = made.linked(b"\0" + site, good, after=[attribute(made.boot, b"", 0xFFFFFFFF)])
    yield "a second table that is too long", data, Fault("Bootstrap", len(data) - 6)
    data = made.linked(b"\0" + site, good, after=[u2(made.boot)])
    yield "a second table without a length", data, Fault("Bootstrap", len(data) - 2)
    data = made.linked(b"\0" + site, good, before=[attribute(made.boot, b"")], after=[])
    length = len(attribute(made.boot, u2(1) + u2(made.good) + u2(0)))
    yield "an empty table, then another", data, Fault("Cut", len(data) - length)
    data = made.linked(code, bad, after=[attribute(made.note, b"", 1)])
    yield "a missing row, and a later attribute that is cut", data, Fault("Cut", len(data))
    data = made.linked(code, bad, after=[attribute(0, b"")])
    yield "a missing row, and a later attribute of no name", data, Fault("BadIndex", len(data) - 6)
    data = made.linked(b"\0" + site + b"\xca", bad)
    yield "a broken row, and a later opcode", data, made.at("BadOpcode", 6)
    data = made.linked(b"\0" + missing + site, bad)
    yield "a missing row, then a broken one", data, made.at("Bootstrap", 1)
    data = made.linked(b"\0" + site + missing, bad)
    yield "a broken row, then a missing one", data, made.at("BadIndex", 1)
    data = made.linked(site + made.dynamic(1), bad, (made.type,))
    yield "two broken rows", data, made.at("BadIndex", 0)
    data = made.linked(made.dynamic(1) + site, bad, (made.type,))
    yield "two broken rows, the second used first", data, made.at("WrongKind", 0, made.type)
    data = made.linked(b"\0" + made.dynamic(1) + site + site, bad, good)
    yield "a broken row that is used twice", data, made.at("BadIndex", 6)
    for what, row, told in (("no name, then nothing", (made.good, made.nameless, 0), ("EmptyName",)),
                            ("nothing, then no name", (made.good, 0, made.nameless), ("BadIndex",)),
                            ("a descriptor, then past the pool", (made.good, made.shapeless, 65535), ("Descriptor",)),
                            ("past the pool, then a descriptor", (made.good, 65535, made.shapeless), ("BadIndex", 65535)),
                            ("a bootstrap handle of no name, then nothing", (made.nameless, 0), ("EmptyName",)),
                            ("a bootstrap handle of a bad descriptor, then no name", (made.shapeless, made.nameless), ("Descriptor",)),
                            ("a bootstrap method's type, then nothing", (made.type, 0), ("WrongKind", made.type))):
        data = made.linked(b"\0" + site, row)
        yield "a row: " + what, data, made.at(told[0], 1, *told[1:])
    pool = made.pool
    whole = attributes(attribute(made.code, code_content(missing)))
    broken = attributes(attribute(made.code, code_content(b"\0\xca")))
    data = class_file(pool, made.this, [(made.m, made.void, whole), (pool.utf8(b"n"), made.void, broken)])
    yield "a missing row, and a later method's opcode", data, Fault("BadOpcode", len(data) - 7)
    other = attributes(attribute(made.code, code_content(site)))
    methods = [(made.m, made.void, whole), (pool.utf8(b"k"), made.void, other)]
    data = class_file(pool, made.this, methods, attributes=attributes(attribute(made.boot, u2(1) + u2(0) + u2(0))))
    yield "a missing row, and a later method's broken row", data, made.at("Bootstrap", 0)
    data = class_file(pool, made.this, methods[::-1], attributes=attributes(attribute(made.boot, u2(1) + u2(0) + u2(0))))
    yield "a broken row, and a later method's missing row", data, made.at("BadIndex", 0)


def place_rows():
    """Attributes named BootstrapMethods at other places, and names that are nearly that."""
    made = Linked()
    code = made.dynamic(0)
    rows = attribute(made.boot, u2(1) + u2(made.good) + u2(0))
    for what, some in (("rows", [rows]), ("garbage", [attribute(made.boot, b"garbage")]), ("two", [rows, rows])):
        body = attribute(made.code, code_content(code))
        inner = attribute(made.code, code_content(code, inner=attributes(*some)))
        for where, parts in (("a method before its code", [*some, body]), ("a method", [body, *some]), ("a code", [inner])):
            data = made.with_rows(*parts)
            before = len(b"".join(some)) if where.endswith("before its code") else 0
            yield "%s of BootstrapMethods of %s alone" % (what, where), data, made.at("Bootstrap", before)
            data = made.with_rows(*parts, more=attributes(rows))
            yield "%s of BootstrapMethods of %s too" % (what, where), data, handles((0, 6, GOOD))
    for name in (b"BootstrapMethod", b"BootstrapMethodsX", b"bootstrapMethods", b""):
        other = made.pool.utf8(name)
        data = made.with_rows(attribute(made.code, code_content(code)), more=attributes(attribute(other, rows[6:])))
        yield "an attribute %r" % name, data, made.at("Bootstrap", 0)
    again = made.pool.utf8(b"BootstrapMethods")
    data = made.with_rows(attribute(made.code, code_content(code)), more=attributes(attribute(again, rows[6:])))
    yield "rows by another entry of the name", data, handles((0, 6, GOOD))
    data = made.with_rows(attribute(made.code, code_content(code)), more=attributes(rows, attribute(again, rows[6:])))
    yield "two tables by two entries of the name", data, Fault("Bootstrap", len(data) - len(rows))
    data = made.linked(code, (made.good,), before=[attribute(made.code, b"garbage"), attribute(made.note, b"")])
    yield "rows after other attributes", data, handles((0, 6, GOOD))


def handle_limit_rows():
    """The numbers of sites with those of handles."""
    made = Linked()
    pool = made.pool
    names = [pool.utf8(b"m%d" % number) for number in range(80)]
    call, site = b"\xb8" + made.method, made.dynamic(0)

    def with_codes(rows, *codes):
        """The class file of methods of these codes and of rows."""
        methods = [(name, made.void, attributes(attribute(made.code, code_content(code)))) for name, code in zip(names, codes)]
        content = u2(len(rows)) + b"".join(u2(row[0]) + u2(len(row) - 1) + b"".join(map(u2, row[1:])) for row in rows)
        return class_file(pool, made.this, methods, attributes=attributes(attribute(made.boot, content)))

    most = [call * 20000] * 50
    one, two = (made.good,), (made.good, made.good)
    yield "999999 calls and a handle", with_codes([one], site + call * 19999, *most[1:]), 1000000
    data = with_codes([one], site, *most)
    yield "a handle before a million calls", data, made.at("ManySites", 0)
    data = with_codes([two], site + call * 19999, *most[1:])
    yield "999999 calls and a row of two handles", data, made.at("ManySites", 0)
    data = with_codes([(made.good, made.good, 0)], site + call * 19999, *most[1:])
    yield "a row that is broken past the limit", data, made.at("ManySites", 0)
    data = with_codes([(made.good, 0, made.good)], site + call * 19999, *most[1:])
    yield "a row that is broken before the limit", data, made.at("BadIndex", 0)
    data = with_codes([(made.good, made.nameless)], site + call * 19999, *most[1:])
    yield "a row whose handle past the limit has no name", data, made.at("EmptyName", 0)
    data = with_codes([(made.field_handle,)], site, *most)
    yield "a million calls and a handle of a field", data, 1000000
    data = with_codes([one], made.dynamic(9), *most, call)
    yield "a missing row before a million and one calls", data, Fault("ManySites", len(data) - 21)
    many = (made.good,) + (made.good,) * 59999
    yield "sixteen times 60000 handles", with_codes([many], site * 16), 960000
    data = with_codes([many], site * 16 + b"\0" + made.dynamic(1) + site)
    yield "sixteen times 60000 handles, then a missing row", data, made.at("Bootstrap", 81)
    data = with_codes([many, one], site * 16 + b"\0" + made.dynamic(1) + site)
    yield "a handle more, then again 60000", data, made.at("ManySites", 86)
    data = with_codes([many], site * 17, b"\xb1")
    yield "seventeen times 60000 handles", data, made.at("ManySites", 80)
    yield "a million handles, one to a row", with_codes([one], *[site * 12500] * 80), 1000000


BAD_PATHS = [b"/", b"/a.class", b"a/", b"a//b.class", b".", b"..", b"./a.class", b"a/./b.class", b"a/..", b"../a.class", b"a\\b.class",
             b"\x1f.class", b"a\0.class", b"\n", b"\x7f.class", b"a.class/"]
GOOD_PATHS = [b"a.class", b"A.CLASS.class", b"...class", b".../a.class", b"a./b.class", b"..a/b.class", b" .class", b"\x80\xff.class",
              b"\x7e.class", b"a/.class", b".class", b"a" * 1018 + b".class", b"META-INF/versions.class", b"META-INF/a.class",
              b"meta-inf/versions/9/a.class", b"x/META-INF/versions/9/a.class", b"META-INF/versionsx/a.class"]
PASSED = [b"a", b"a.clas", b"a.CLASS", b"a.class2", b"aclass", b"class", b"META-INF/MANIFEST.MF", b"META-INF/versions/9/a", b"a.class/b"]
I_TYPE = NONE, "type I\ntypes 1 methods 0\n"


def bundle_rows():
    """Faults of bundles and of their class files, and entries that are passed over."""
    whole = plain.pack([(b"I.class", SMALLEST)])
    starts = [0, 4, 6, 10, 12, 19, 23, 76]
    yield "a bundle", whole, I_TYPE
    for length in range(len(whole)):
        yield "a bundle cut at %d" % length, ("bundle", whole[:length]), of_bundle("Cut", item_at(starts, length))
    for more in (1, 2, 1000):
        yield "a bundle and %d bytes" % more, whole + bytes(more), of_bundle("Trailing", 76, 1)
    yield "no entry and a byte", bundle_of() + b"\0", of_bundle("Trailing", 10)
    for front in (b"FCGA", b"\0CGB", b"fcgb", b"PK\3\5", b"\xca\xfe\xba\xbe"):
        yield "a bundle that begins %r" % front, ("bundle", front + whole[4:]), of_bundle("Magic", 0)
        yield "%r alone" % front, ("bundle", front), of_bundle("Magic", 0)
    for version in (0, 2, 256, 257, 65535):
        yield "a bundle of version %d" % version, whole[:4] + u2(version) + whole[6:], of_bundle("Version", 4)
    yield "a jar", ("bundle", b"PK\3\4"), plain.JAR_FAULT
    yield "a jar and more", ("bundle", b"PK\3\4" + whole), plain.JAR_FAULT
    yield "a count of 4294967295 alone", bytes.fromhex("464347420001ffffffff"), of_bundle("Cut", 10)
    yield "a count of 0", whole[:6] + u4(0) + whole[10:], of_bundle("Trailing", 10)
    yield "a count of 2", whole[:6] + u4(2) + whole[10:], of_bundle("Cut", 76, 1)
    yield "a count of 2, one byte", whole[:6] + u4(2) + whole[10:] + b"\0", of_bundle("Cut", 76, 1)
    yield "an entry twice", whole[:6] + u4(2) + whole[10:] * 2, of_bundle("Path", 78, 1)
    yield "an entry twice, the second cut", whole[:6] + u4(2) + whole[10:] + whole[10:19], of_bundle("Path", 78, 1)
    for size in (0, 1025, 65535):
        front = b"FCGB\0\1" + u4(1) + u2(size)
        yield "a path of %d bytes that are there" % size, front + b"p" * size + u4(0), of_bundle("Path", 10)
        yield "a path of %d bytes that aren't there" % size, front, of_bundle("Path", 10)
        yield "a second path of %d bytes" % size, whole[:6] + u4(2) + whole[10:] + u2(size), of_bundle("Path", 76, 1)
    yield "a path of 1024 bytes that aren't there", b"FCGB\0\1" + u4(1) + u2(1024) + b"p" * 1023, of_bundle("Cut", 12)
    for path in BAD_PATHS:
        yield "the path %r" % path, plain.pack([(path, SMALLEST)]), of_bundle("Path", 12)
        yield "the path %r of no body" % path, plain.pack([(path, b"")])[:-4], of_bundle("Path", 12)
    for path in GOOD_PATHS:
        yield "the path %r" % path[:9], plain.pack([(path, SMALLEST)]), I_TYPE
    for path in PASSED:
        yield "the path %r" % path, plain.pack([(path, SMALLEST)]), NO_TYPE
        yield "the path %r of garbage" % path, plain.pack([(path, b"garbage"), (b"I.class", SMALLEST)]), I_TYPE
        yield "the path %r twice" % path, plain.pack([(path, b""), (path, b"")]), of_bundle("Path", 18 + len(path), 1)
    size = 0xFFFFFFFF
    yield "a body past the end", whole[:19] + u4(54) + whole[23:], of_bundle("Cut", 23)
    yield "a body of 4294967295", whole[:19] + u4(size) + whole[23:], of_bundle("Cut", 23)
    yield "a body that is passed over, past the end", plain.pack([(b"a", b"xy")])[:-1], of_bundle("Cut", 17)
    yield from entry_rows()
    yield from version_rows()


def entry_rows():
    """Faults of class files by their entries."""
    bad = SMALLEST + b"\0"
    yield "a body of no bytes", plain.pack([(b"a.class", b"")]), Fault("Cut", 0)
    yield "a body of three bytes", plain.pack([(b"a.class", b"PK\3")]), Fault("Cut", 0)
    yield "a body that is a jar", plain.pack([(b"a.class", plain.JAR)]), Fault("Magic", 0)
    yield "the second body", plain.pack([(b"a.class", SMALLEST), (b"b.class", bad)]), Fault("Trailing", 53, entry=1)
    yield "two bodies", plain.pack([(b"a.class", SMALL[:9]), (b"b.class", bad)]), Fault("Cut", 8)
    yield "the third entry", plain.pack([(b"a", bad), (b"b", b""), (b"c.class", changed(82, 5))]), Fault("WrongKind", 80, 5, 2)
    yield "a body, then a bad path", plain.pack([(b"a.class", bad), (b"..", bad)]), Fault("Trailing", 53)
    yield "a bad path, then a body", plain.pack([(b"..", bad), (b"a.class", bad)]), of_bundle("Path", 12)
    yield "a body, then a byte", plain.pack([(b"a.class", bad)]) + b"\0", Fault("Trailing", 53)
    yield "a body, then the same path", plain.pack([(b"a.class", bad)] * 2), Fault("Trailing", 53)
    yield "a body, then a cut one", plain.pack([(b"a.class", bad)] * 2)[:-1], Fault("Trailing", 53)
    yield "a module that is bad", plain.pack([(b"a.class", as_module(bad))]), Fault("Trailing", 53)
    yield "300 entries", plain.pack([(b"%d" % number, b"") for number in range(300)] + [(b"a.class", bad)]), Fault("Trailing", 53, entry=300)


def version_rows():
    """Entries below META-INF/versions/: they are read and counted, and not shown."""
    place = b"META-INF/versions/9/a.class"
    bad = SMALLEST + b"\0"
    for path in (place, b"META-INF/versions/.class", b"META-INF/versions/9.class", b"META-INF/versions/x/module-info.class"):
        yield "the path %r" % path, plain.pack([(path, SMALL)]), NO_TYPE
        yield "the path %r beside another" % path, plain.pack([(path, SMALL), (b"I.class", SMALLEST)]), I_TYPE
        yield "the path %r of a bad class file" % path, plain.pack([(b"I.class", SMALLEST), (path, bad)]), Fault("Trailing", 53, entry=1)


def version_limit_rows():
    """The numbers of sites with those of entries that aren't shown."""
    place = b"META-INF/versions/9/a.class"
    million, one = calls(1000000), calls(1)
    four = [(b"META-INF/versions/%d/a.class" % number, million) for number in range(4)]
    yield "four million that aren't shown", plain.pack(four), NO_TYPE
    for path in (b"a.class", place):
        data = plain.pack(four + [(path, one)])
        yield "four million that aren't shown, and one at %r" % path, data, of_bundle("ManySites", len(data) - len(one), 4)
    data = plain.pack([(b"%d.class" % number, million) for number in range(4)] + [(place, one)])
    yield "four million, and one that isn't shown", data, of_bundle("ManySites", len(data) - len(one), 4)
    data = plain.pack(four + [(b"m.class", as_module(million)), (b"a", one)])
    yield "four million that aren't shown, and a module", data, NO_TYPE
    data = plain.pack(four + [(b"a.class", one + b"\0")])
    yield "a bad class file past the limit", data, Fault("Trailing", len(one), entry=4)


def rows():
    """Every row: what it is, the bytes of a bundle, and the text, the number of sites, or the fault."""
    for make in (instruction_rows, switch_rows, call_rows, attribute_rows, field_rows, type_rows, static_rows, module_rows,
                 other_rows, rule_rows, linked_rows, bundle_rows, limit_rows, handle_limit_rows, version_limit_rows):
        for what, data, told in make():
            if isinstance(data, tuple):
                bundle = data[1]
            else:
                bundle = data if data[:4] == b"FCGB" else plain.pack([(b"A.class", data)])
            yield what, bundle, told


def refused(told, got):
    """Whether an answer is the refusal that was told."""
    status, out, err = got
    if (status, out) != (3, b""):
        return False
    if isinstance(told, bytes):
        return err == told
    offset = told.offset
    if offset is None:
        offset = json.loads(err).get("offset")
    row = {"entry": told.entry, "fault": "BadBundle" if told.whole else "BadClass", "offset": offset, "rule": told.rule}
    if not told.whole:
        row["index"] = told.index
    return err.decode() == json.dumps(row, sort_keys=True, separators=(",", ":")) + "\n"


def right(told, got):
    """Whether an answer is what was told."""
    status, out, err = got
    if isinstance(told, (Fault, bytes)):
        return refused(told, got)
    if isinstance(told, tuple):
        return got == (0, told[0].encode(), b"")
    if isinstance(told, int):
        return status == 0 and not err and out.endswith(b"\nsites %d\n" % told) and out.count(b"\n") == told + 1
    return got == (0, told.encode(), b"")


def lists(told, got):
    """Whether an answer of list goes with what was told of sites."""
    if isinstance(told, (Fault, bytes)):
        return refused(told, got)
    if isinstance(told, tuple):
        return got == (0, told[1].encode(), b"")
    return got[0] == 0 and not got[2] and got[1].split(b"\n")[-2].startswith(b"types ")


def by_program(bundle):
    """The answers of ./fcg sites and ./fcg list."""
    return [measure.run_bytes(bundle, measure.COMMANDS[command]) for command in ("sites", "list")]


def by_plain(bundle):
    """The answers of plain.py to sites and list; the bundle is read once."""
    try:
        found = plain.shown(bundle)
    except plain.Refused as fault:
        return [(3, b"", fault.line)] * 2
    return [(0, b"".join(plain.LINES[command](found)), b"") for command in ("sites", "list")]


def main(words):
    """Compares every row."""
    if words not in ([], ["--fcg"]):
        print(__doc__ + "\nUse: by_hand.py [--fcg]")
        return 0 if words == ["--help"] else 2
    count = bad = 0
    for what, bundle, told in rows():
        sites, listed = by_program(bundle) if words else by_plain(bundle)
        count += 1
        for got, fits in ((sites, right), (listed, lists)):
            if fits(told, got):
                continue
            bad += 1
            print("WRONG: %s: told %s, got %r" % (what, str(told)[:300], (got[0], got[1][:300], got[2])))
    print("%d rows, %d wrong" % (count, bad))
    return 1 if bad else 0


if __name__ == "__main__":
    sys.exit(main(sys.argv[1:]))
