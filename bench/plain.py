#!/usr/bin/env python3
"""An independent reader of class files and bundles, with the first fault of each.

It is written from the formats' description (after JVMS 4) and shares no code with the program, so that
the two can be compared byte by byte. As a script it answers as `fcg list` or `fcg sites` should.
"""

import array
import collections
import re
import struct
import sys

LIMIT = 67108864
CLASS_SITES = 1000000
BUNDLE_SITES = 4000000
CODE = 65535
JAR = b"PK\x03\x04"
BODY_TOO_LONG = b'{"fault":"BodyTooLong","limit":67108864}\n'
JAR_FAULT = b'{"fault":"Jar"}\n'
VERSIONS = b"META-INF/versions/"

# a Utf8 entry: groups of one, two and three bytes
_UTF8 = re.compile(rb"(?:[\x01-\x7f]|[\xc0-\xdf][\x80-\xbf]|[\xe0-\xef][\x80-\xbf][\x80-\xbf])*", re.S)
# a field descriptor; the group is its J or D where it is no array
_FIELD = re.compile(rb"\[{0,255}(?:[BCFISZ]|([DJ])|L[^;]+;)", re.S)
_WORD = b"ABCDEFGHIJKLMNOPQRSTUVWXYZabcdefghijklmnopqrstuvwxyz0123456789_-$"
_BOOTSTRAP = b"BootstrapMethods"
_MODULE = 0x8000

# what is read of a class file: the pairs of name and descriptor of its fields, and of each method these and its sites
View = collections.namedtuple("View", "name module fields methods")


class ClassFault(Exception):
    """The first fault of a class file: the rule's name, the offset in the file and the index in the pool, or 0."""

    def __init__(self, rule, offset, index=0):
        super().__init__("%s at %d, index %d" % (rule, offset, index))
        self.rule = rule
        self.offset = offset
        self.index = index

    def line(self, entry):
        """The refusal of a bundle whose entry of this number has the fault."""
        words = entry, self.index, self.offset, self.rule.encode()
        return b'{"entry":%d,"fault":"BadClass","index":%d,"offset":%d,"rule":"%s"}\n' % words


class Refused(Exception):
    """Why a bundle is refused: the line that is printed."""

    def __init__(self, line):
        super().__init__(line)
        self.line = line


def bundle_fault(rule, offset, entry):
    """The refusal of a bundle by a rule of its own."""
    return Refused(b'{"entry":%d,"fault":"BadBundle","offset":%d,"rule":"%s"}\n' % (entry, offset, rule.encode()))


def _escape_table(extra):
    """The text of each byte, where the bytes of `extra` stand beside letters, digits, `_`, `-`, `$`."""
    stands = set(_WORD + extra)
    return [bytes([b]) if b in stands else b"%%%02X" % b for b in range(256)]


_TABLES = {extra: _escape_table(extra) for extra in (b"", b"/", b"/();[")}


def escape(text, extra=b""):
    """`text` with each byte that does not stand written as `%` and two upper-case hex digits."""
    table = _TABLES[extra]
    return b"".join([table[b] for b in text])


def is_method_descriptor(text):
    """Whether `text` is a method descriptor of at most 255 parameter units."""
    if text[:1] != b"(":
        return False
    at = 1
    units = 0
    while text[at:at + 1] != b")":
        field = _FIELD.match(text, at)
        if field is None:
            return False
        # a long or a double that is no element of an array takes two units
        units += 2 if field.group(1) and text[at] != 0x5B else 1
        if units > 255:
            return False
        at = field.end()
    rest = text[at + 1:]
    return rest == b"V" or is_field_descriptor(rest)


def is_field_descriptor(text):
    """Whether `text` is a field descriptor."""
    return _FIELD.fullmatch(text) is not None


class _Reader:
    """A place in the bytes of a class file and the end of what may be read; an item that passes it is cut."""

    def __init__(self, data, at, end):
        self.data = data
        self.at = at
        self.end = end

    def skip(self, count):
        """Passes over one item of `count` bytes."""
        if self.at + count > self.end:
            raise ClassFault("Cut", self.at)
        self.at += count

    def take(self, count):
        """The next item of `count` bytes."""
        start = self.at
        self.skip(count)
        return self.data[start:self.at]

    def u1(self):
        """The next byte."""
        return self.take(1)[0]

    def u2(self):
        """The next two bytes, big-endian."""
        return int.from_bytes(self.take(2), "big")

    def u4(self):
        """The next four bytes, big-endian."""
        return int.from_bytes(self.take(4), "big")

    def content(self):
        """A reader of the next attribute's content, whose length comes first; this one passes over it."""
        length = self.u4()
        start = self.at
        self.skip(length)
        return _Reader(self.data, start, self.at)

    def skip_content(self):
        """Passes over the next attribute's content, whose length comes first."""
        self.skip(self.u4())

    def finish(self):
        """Refuses bytes that follow."""
        if self.at < self.end:
            raise ClassFault("Trailing", self.at)


# the constants by their tags: the sizes of the items after the tag, and the tags that each index of these may name
_LAYOUT = {
    3: ("4s", ()), 4: ("4s", ()), 5: ("8s", ()), 6: ("8s", ()),
    7: ("H", ((1,),)), 8: ("H", ((1,),)), 16: ("H", ((1,),)), 19: ("H", ((1,),)), 20: ("H", ((1,),)),
    9: ("HH", ((7,), (12,))), 10: ("HH", ((7,), (12,))), 11: ("HH", ((7,), (12,))),
    12: ("HH", ((1,), (1,))), 15: ("BH", None), 17: ("HH", (None, (12,))), 18: ("HH", (None, (12,))),
}
_ITEMS = {"4s": (4,), "8s": (8,), "H": (2,), "HH": (2, 2), "BH": (1, 2)}
_UTF8_TAG, _CLASS_TAG, _PAIR_TAG, _HANDLE_TAG, _DYNAMIC_TAG = 1, 7, 12, 15, 18
_WIDE_TAGS = (5, 6)
# the tags that a method handle of a kind may name
_HANDLES = {1: (9,), 2: (9,), 3: (9,), 4: (9,), 5: (10,), 6: (10, 11), 7: (10, 11), 8: (10,), 9: (11,)}
# the least kind of a method handle that calls a method
_CALLING = 5


def _read_utf8(reader, index):
    """The text of a Utf8 entry of this index."""
    length = reader.u2()
    start = reader.at
    text = reader.take(length)
    good = _UTF8.match(text).end()
    if good < length:
        raise ClassFault("BadUtf8", start + good, index)
    return text


def _read_entry(reader, index):
    """The tag of an entry of this index, and its text (Utf8) or its numbers."""
    start = reader.at
    tag = reader.u1()
    if tag == _UTF8_TAG:
        return tag, _read_utf8(reader, index)
    if tag not in _LAYOUT:
        raise ClassFault("BadTag", start, index)
    layout = _LAYOUT[tag][0]
    return tag, struct.unpack(">" + layout, b"".join([reader.take(size) for size in _ITEMS[layout]]))


def _read_pool(reader):
    """The constant pool: an index gives the tag and the text (Utf8) or the numbers of an entry, or None."""
    count = reader.u2()
    pool = [None]
    places = [None]
    while len(pool) < count:
        places.append(reader.at)
        pool.append(_read_entry(reader, len(pool)))
        # the second index of a Long or Double is unusable; it may also be past the pool
        if pool[-1][0] in _WIDE_TAGS and len(pool) < count:
            pool.append(None)
            places.append(None)
    for index, entry in enumerate(pool):
        if entry is not None and entry[0] != _UTF8_TAG:
            _check_entry(pool, index, places[index])
    return pool


def _check_entry(pool, index, place):
    """Refuses an entry at the pool's end that needs two indexes, and one that names what it may not."""
    tag, numbers = pool[index]
    if tag in _WIDE_TAGS and index + 1 == len(pool):
        raise ClassFault("BadIndex", place, index)
    if tag == _HANDLE_TAG:
        kind, named = numbers
        if kind not in _HANDLES:
            raise ClassFault("WrongKind", place, index)
        _entry(pool, named, _HANDLES[kind], place, index)
        return
    for named, tags in zip(numbers, _LAYOUT[tag][1]):
        if tags is not None:
            _entry(pool, named, tags, place, index)


def _entry(pool, index, tags, offset, told=None):
    """What the entry at `index` holds, which has one of these tags; a fault tells `told`, or the index."""
    if index == 0 or index >= len(pool) or pool[index] is None:
        raise ClassFault("BadIndex", offset, index if told is None else told)
    if pool[index][0] not in tags:
        raise ClassFault("WrongKind", offset, index if told is None else told)
    return pool[index][1]


def _set(*numbers):
    """A set of opcodes as a part of a pattern; a pair stands for all from its first to its last."""
    parts = []
    for one in numbers:
        low, high = one if isinstance(one, tuple) else (one, one)
        parts.append(b"\\x%02x-\\x%02x" % (low, high))
    return b"[" + b"".join(parts) + b"]"


# the instructions of which only the length matters; . is a byte
_ONE = _set((0, 15), (26, 53), (59, 131), (133, 152), (172, 177), 190, 191, 194, 195)
_LOCAL = _set((21, 25), (54, 58), 169)
_TWO = _set(16, 18, 188)
_THREE = _set(17, 19, 20, 132, (153, 168), 180, 181, 189, 192, 193, 198, 199)
_FIVE = _set(200, 201)
_PASSED = re.compile(b"(?:%s+|%s.|%s.|%s..|\\xc5...|%s....|\\xc4%s..|\\xc4\\x84....)*"
                     % (_ONE, _LOCAL, _TWO, _THREE, _FIVE, _LOCAL), re.S)
# the instructions of sites: the kind, the length, and the tags of what is named
_SITES = {178: (b"staticfield", 3, (9,)), 179: (b"staticfield", 3, (9,)), 187: (b"new", 3, (7,)),
          182: (b"virtual", 3, (10,)), 183: (b"special", 3, (10, 11)), 184: (b"static", 3, (10, 11)),
          185: (b"interface", 5, (11,))}
_KINDS = {9: is_field_descriptor, 10: is_method_descriptor, 11: is_method_descriptor}
_TABLE = 170
_LOOKUP = 171
_INVOKEDYNAMIC = 186
_WIDE = 196
_FIRST_FREE = 202
# the opcodes that may follow a 196, as bytes of a pattern
_WIDENED = re.compile(_LOCAL + b"|\\x84", re.S)


def _inside(code, end, start, at):
    """Refuses an instruction at `at` that goes up to `end` of a code that begins at `start` of the file."""
    if end > len(code):
        raise ClassFault("CodeCut", start + at)


def _after_switch(code, at, start):
    """The place after the switch at `at`."""
    numbers = at + 4 - at % 4
    if code[at] == _TABLE:
        _inside(code, numbers + 12, start, at)
        low, high = struct.unpack_from(">ii", code, numbers + 4)
        right = low <= high
        end = numbers + 12 + 4 * (high - low + 1)
    else:
        _inside(code, numbers + 8, start, at)
        pairs = struct.unpack_from(">i", code, numbers + 4)[0]
        right = pairs >= 0
        end = numbers + 8 + 8 * pairs
    if not right:
        raise ClassFault("BadSwitch", start + at)
    _inside(code, end, start, at)
    return end


def _refuse_instruction(code, at, start):
    """Refuses the instruction at `at`, which is none of those that are passed over by their length."""
    if code[at] >= _FIRST_FREE:
        raise ClassFault("BadOpcode", start + at)
    if code[at] == _WIDE and at + 1 < len(code) and not _WIDENED.match(code, at + 1):
        raise ClassFault("BadWide", start + at)
    raise ClassFault("CodeCut", start + at)


class _Body:
    """What the parts of one class file share while they are read."""

    def __init__(self, pool):
        self.pool = pool
        self.descriptors = set()
        self.targets = {}
        self.sites = 0
        # the rows of BootstrapMethods, of each its handle's index and its arguments' indexes as bytes
        self.rows = None
        self.resolved = {}

    def utf8(self, reader):
        """The next index's place and the text of the Utf8 that it names."""
        place = reader.at
        return place, _entry(self.pool, reader.u2(), (_UTF8_TAG,), place)

    def name(self, reader):
        """The name, not empty, that the next index names."""
        place, text = self.utf8(reader)
        return self.named(text, place)

    def descriptor(self, reader, is_right):
        """The descriptor that the next index names."""
        place, text = self.utf8(reader)
        return self.described(text, is_right, place)

    def class_name(self, reader):
        """The name, not empty, of the Class that the next index names."""
        place = reader.at
        return self.type_name(reader.u2(), place)

    def named(self, text, offset):
        """A name, which isn't empty; a fault stands at the offset."""
        if not text:
            raise ClassFault("EmptyName", offset)
        return text

    def described(self, text, is_right, offset):
        """A descriptor, which is right; a fault stands at the offset."""
        if (text, is_right) not in self.descriptors:
            if not is_right(text):
                raise ClassFault("Descriptor", offset)
            self.descriptors.add((text, is_right))
        return text

    def type_name(self, index, offset):
        """The name, not empty, of the Class at `index`; a fault stands at the offset."""
        text = _entry(self.pool, index, (_CLASS_TAG,), offset)[0]
        return self.named(self.pool[text][1], offset)

    def member(self, index, tags, offset):
        """The owner, name and descriptor of the member at `index`, which has one of these tags."""
        place, pair = _entry(self.pool, index, tags, offset)
        owner = self.type_name(place, offset)
        name, descriptor = _entry(self.pool, pair, (_PAIR_TAG,), offset)
        name = self.named(self.pool[name][1], offset)
        return owner, name, self.described(self.pool[descriptor][1], _KINDS[tags[0]], offset)

    def count(self, number, offset):
        """Counts sites of the instruction at the offset."""
        self.sites += number
        if self.sites > CLASS_SITES:
            raise ClassFault("ManySites", offset)

    def target(self, start, offset):
        """The kind, owner, name and descriptor of a site by its opcode and index.

        A `new` names an owner alone; its name and descriptor are empty.
        """
        if start not in self.targets:
            kind, _, tags = _SITES[start[0]]
            index = int.from_bytes(start[1:], "big")
            if tags == (_CLASS_TAG,):
                named = self.type_name(index, offset), b"", b""
            else:
                named = self.member(index, tags, offset)
            self.targets[start] = (kind, *named)
        return self.targets[start]

    def bootstrap(self, start, offset):
        """The bootstrap index of an `invokedynamic` by its opcode and index."""
        if start not in self.targets:
            index = int.from_bytes(start[1:], "big")
            self.targets[start] = _entry(self.pool, index, (_DYNAMIC_TAG,), offset)[0]
        return self.targets[start]

    def code(self, code, start):
        """The sites of a code that begins at `start` of the file, and its `invokedynamic`s.

        A site is its place and its target. An `invokedynamic` is a number of its place and its bootstrap index.
        """
        sites = []
        dynamics = array.array("I")
        at = 0
        while at < len(code):
            opcode = code[at]
            if opcode in _SITES:
                end = at + _SITES[opcode][1]
                _inside(code, end, start, at)
                sites.append((at, self.target(code[at:at + 3], start + at)))
                self.count(1, start + at)
            elif opcode == _INVOKEDYNAMIC:
                end = at + 5
                _inside(code, end, start, at)
                dynamics.append(at << 16 | self.bootstrap(code[at:at + 3], start + at))
            elif opcode in (_TABLE, _LOOKUP):
                end = _after_switch(code, at, start)
            else:
                end = _PASSED.match(code, at).end()
                if end == at:
                    _refuse_instruction(code, at, start)
            at = end
        return sites, dynamics

    def code_attribute(self, reader):
        """The code's place, sites and `invokedynamic`s in the content of a Code attribute."""
        reader.skip(2)
        reader.skip(2)
        place = reader.at
        length = reader.u4()
        if not 1 <= length <= CODE:
            raise ClassFault("CodeLength", place)
        start = reader.at
        sites, dynamics = self.code(reader.take(length), start)
        for _ in range(reader.u2()):
            reader.skip(8)
        self.attributes(reader)
        reader.finish()
        return start, sites, dynamics

    def attributes(self, reader):
        """Passes over a count of attributes."""
        for _ in range(reader.u2()):
            self.utf8(reader)
            reader.skip_content()

    def fields(self, reader):
        """The names and descriptors of the fields."""
        found = []
        for _ in range(reader.u2()):
            reader.u2()
            name = self.name(reader)
            found.append((name, self.descriptor(reader, is_field_descriptor)))
            self.attributes(reader)
        return found

    def methods(self, reader):
        """The names and descriptors of the methods, and what their codes hold."""
        found = []
        seen = set()
        for _ in range(reader.u2()):
            row = reader.at
            reader.u2()
            name = self.name(reader)
            pair = name, self.descriptor(reader, is_method_descriptor)
            if pair in seen:
                raise ClassFault("DoubleMethod", row)
            seen.add(pair)
            found.append((*pair, self.method_attributes(reader)))
        return found

    def method_attributes(self, reader):
        """What the code of a method holds, where its Code attribute is among its attributes."""
        found = None
        for _ in range(reader.u2()):
            place, name = self.utf8(reader)
            if name != b"Code":
                reader.skip_content()
                continue
            if found is not None:
                raise ClassFault("DoubleCode", place)
            found = self.code_attribute(reader.content())
        return found or (0, [], ())

    def class_attributes(self, reader):
        """Passes over the attributes of the class, but for BootstrapMethods, which is read."""
        for _ in range(reader.u2()):
            place, name = self.utf8(reader)
            if name != _BOOTSTRAP:
                reader.skip_content()
                continue
            if self.rows is not None:
                raise ClassFault("Bootstrap", place)
            self.rows = self.bootstrap_rows(reader.content())

    def bootstrap_rows(self, reader):
        """The rows of the content of BootstrapMethods; what they name isn't looked at."""
        rows = []
        for _ in range(reader.u2()):
            handle = reader.u2()
            count = reader.u2()
            # each argument is an item: the first that passes the end is cut
            fits = min(count, (reader.end - reader.at) // 2)
            arguments = reader.take(2 * fits)
            if fits < count:
                reader.skip(2)
            rows.append((handle, arguments))
        reader.finish()
        return rows

    def handle(self, index, offset):
        """The target of the MethodHandle at `index`, in a list, where it calls a method; else an empty list."""
        kind, named = self.pool[index][1]
        if kind < _CALLING:
            return []
        return [(b"handle%d" % kind, *self.member(named, (10, 11), offset))]

    def row(self, number, offset):
        """The targets of the handles of a row, which an `invokedynamic` at the offset uses."""
        if number in self.resolved:
            found = self.resolved[number]
            self.count(len(found), offset)
            return found
        if self.rows is None or number >= len(self.rows):
            raise ClassFault("Bootstrap", offset)
        handle, arguments = self.rows[number]
        _entry(self.pool, handle, (_HANDLE_TAG,), offset)
        found = []
        for index in (handle, *struct.unpack(">%dH" % (len(arguments) // 2), arguments)):
            if index == 0 or index >= len(self.pool) or self.pool[index] is None:
                raise ClassFault("BadIndex", offset, index)
            if self.pool[index][0] == _HANDLE_TAG:
                more = self.handle(index, offset)
                self.count(len(more), offset)
                found += more
        self.resolved[number] = found
        return found

    def all_sites(self, start, sites, dynamics):
        """The sites of a method with those of the handles that its `invokedynamic`s use, by their places."""
        more = []
        for packed in dynamics:
            place = packed >> 16
            found = self.row(packed & 0xFFFF, start + place)
            if found:
                more += [(place, target) for target in found]
        return sorted(sites + more, key=lambda site: site[0]) if more else sites


def read_class(data):
    """The View of a class file; that of a module is marked as such. Raises ClassFault.

    A field is its name and descriptor, a method its name, descriptor and sites. A site is its place and its
    target, which is the kind and the owner, name and descriptor of what is named.
    """
    reader = _Reader(data, 0, len(data))
    if reader.take(4) != b"\xca\xfe\xba\xbe":
        raise ClassFault("Magic", 0)
    reader.u2()
    if not 45 <= reader.u2() <= 65:
        raise ClassFault("Version", 6)
    body = _Body(_read_pool(reader))
    module = reader.u2() & _MODULE != 0
    name = body.class_name(reader)
    if data[reader.at:reader.at + 2] == b"\0\0":
        reader.skip(2)
    else:
        body.class_name(reader)
    for _ in range(reader.u2()):
        body.class_name(reader)
    fields = body.fields(reader)
    methods = body.methods(reader)
    body.class_attributes(reader)
    methods = [(name, descriptor, body.all_sites(*code)) for name, descriptor, code in methods]
    reader.finish()
    return View(name, module, fields, methods)


def class_fault(data):
    """The first fault of a class file, or None."""
    try:
        read_class(data)
    except ClassFault as fault:
        return fault
    return None


def is_path(path):
    """Whether `path` may be the path of an entry."""
    if not 1 <= len(path) <= 1024:
        return False
    if any(b < 0x20 or b in (0x5C, 0x7F) for b in path):
        return False
    return all(part not in (b"", b".", b"..") for part in path.split(b"/"))


def _item(bundle, at, size, entry):
    """The place after an item of a bundle, in the entry of this number."""
    if at + size > len(bundle):
        raise bundle_fault("Cut", at, entry)
    return at + size


def _count_of_entries(bundle):
    """The number of entries that a bundle says it has."""
    _item(bundle, 0, 4, 0)
    if bundle[:4] == JAR:
        raise Refused(JAR_FAULT)
    if bundle[:4] != b"FCGB":
        raise bundle_fault("Magic", 0, 0)
    _item(bundle, 4, 2, 0)
    if bundle[4:6] != b"\0\1":
        raise bundle_fault("Version", 4, 0)
    _item(bundle, 6, 4, 0)
    return int.from_bytes(bundle[6:10], "big")


def entries_of(bundle):
    """The path, the body and the body's place of each entry in order; raises Refused at the first fault."""
    count = _count_of_entries(bundle)
    at = 10
    seen = set()
    for entry in range(count):
        start = _item(bundle, at, 2, entry)
        size = int.from_bytes(bundle[at:start], "big")
        if not 1 <= size <= 1024:
            raise bundle_fault("Path", at, entry)
        end = _item(bundle, start, size, entry)
        path = bundle[start:end]
        if not is_path(path) or path in seen:
            raise bundle_fault("Path", start, entry)
        seen.add(path)
        start = _item(bundle, end, 4, entry)
        at = _item(bundle, start, int.from_bytes(bundle[end:start], "big"), entry)
        yield path, bundle[start:at], start
    if at < len(bundle):
        raise bundle_fault("Trailing", at, count)


def unpack(bundle):
    """The (path, body) pairs of a bundle without a fault of its own; the class files aren't read."""
    return [(path, body) for path, body, _ in entries_of(bundle)]


def pack(entries):
    """The bundle of the (path, body) pairs; nothing about them is checked but that the lengths fit."""
    parts = [b"FCGB" + struct.pack(">HI", 1, len(entries))]
    for path, body in entries:
        parts.append(struct.pack(">H", len(path)) + path + struct.pack(">I", len(body)))
        parts.append(body)
    return b"".join(parts)


def count_sites(view):
    """The number of sites of a view."""
    return sum(len(sites) for _, _, sites in view.methods)


def views(bundle):
    """The View of each entry of a bundle that is shown; raises Refused at the first fault.

    A module isn't shown, and neither is a class file below META-INF/versions/, though its sites are counted.
    """
    found = []
    known = {}
    sites = 0
    for entry, (path, body, place) in enumerate(entries_of(bundle)):
        if not path.endswith(b".class"):
            continue
        try:
            view = known[body] if body in known else read_class(body)
        except ClassFault as fault:
            raise Refused(fault.line(entry)) from None
        known[body] = view
        if view.module:
            continue
        sites += count_sites(view)
        if sites > BUNDLE_SITES:
            raise bundle_fault("ManySites", place, entry)
        if not path.startswith(VERSIONS):
            found.append(view)
    return found


class _Texts:
    """The escaped texts of names and descriptors, each made once."""

    def __init__(self):
        self.known = {}

    def part(self, part, extra):
        """An escaped part."""
        if (part, extra) not in self.known:
            self.known[part, extra] = escape(part, extra)
        return self.known[part, extra]

    def type(self, name):
        """The name of a type."""
        return self.part(name, b"/")

    def member(self, name, descriptor):
        """The name and descriptor of a method or a field."""
        return self.part(name, b"") + self.part(descriptor, b"/();[")

    def target(self, kind, owner, name, descriptor):
        """What a site names."""
        if kind == b"new":
            return self.type(owner)
        return self.type(owner) + b"." + self.member(name, descriptor)


def list_lines(found):
    """The lines that `fcg list` prints for the views of a bundle, one after the other."""
    texts = _Texts()
    count = 0
    for view in found:
        yield b"type " + texts.type(view.name) + b"\n"
        for method, descriptor, _ in view.methods:
            yield b"method " + texts.member(method, descriptor) + b"\n"
        count += len(view.methods)
    yield b"types %d methods %d\n" % (len(found), count)


def site_lines(found):
    """The lines that `fcg sites` prints for the views of a bundle, one after the other."""
    texts = _Texts()
    count = 0
    for view in found:
        for method, descriptor, sites in view.methods:
            if sites:
                front = b"site " + texts.type(view.name) + b"." + texts.member(method, descriptor)
            for place, target in sites:
                yield b"%s %d %s %s\n" % (front, place, target[0], texts.target(*target))
            count += len(sites)
    yield b"sites %d\n" % count


LINES = {"list": list_lines, "sites": site_lines}


def shown(data):
    """The views of an input that is shown; raises Refused."""
    if len(data) > LIMIT:
        raise Refused(BODY_TOO_LONG)
    return views(data)


def answer(data, command="list"):
    """The exit status, standard output and standard error that a command of fcg owes to an input."""
    try:
        found = shown(data)
    except Refused as refused:
        return 3, b"", refused.line
    return 0, b"".join(LINES[command](found)), b""


def main(words):
    """Answers for the bundle on standard input."""
    if len(words) > 1 or words and words[0] not in LINES:
        print(__doc__ + "\nUse: plain.py [list | sites] < BUNDLE")
        return 0 if words == ["--help"] else 2
    status, out, err = answer(sys.stdin.buffer.read(), *words)
    sys.stdout.buffer.write(out)
    sys.stderr.buffer.write(err)
    return status


if __name__ == "__main__":
    sys.exit(main(sys.argv[1:]))
