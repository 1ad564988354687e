#!/usr/bin/env python3
"""Reads bundles of real class files and compares the texts with two other readers.

The class files come from every javac on the machine, for sources written here, from the modules of every
JDK on the machine, and from the jars below some folders; those of newer versions must be refused by their version.
The texts of ./fcg list and ./fcg sites are compared byte by byte with those of plain.py; their types,
fields, methods and sites with those that javap prints: of each class file of the oldest JDK, and of a share of
the others. The sites of method handles are compared with the rows of BootstrapMethods that javap -v prints. Then
./fcg is timed beside cat and javap.
"""

import argparse
import collections
import glob
import hashlib
import itertools
import os
import random
import re
import shutil
import subprocess
import sys
import tempfile
import time
import zipfile

import code_edges
import measure
import plain

RELEASES = (8, 11, 17, 21, 25)
GREATEST = 65
WEIGHTY = 60000000
SHARE = 12
TIMED = 4000
MANY = 200
SEED = 20240301
JAR_FOLDERS = ("/usr/share", "/usr/lib", "/usr/local", "/opt", "~/.m2", "~/.gradle", "~/.ivy2", "~/.cache")

SOURCES = {
    "simple/Empty.java": "package simple; public interface Empty { }",
    "simple/Kinds.java": """package simple;
public interface Kinds {
    void none(); boolean z(); byte b(byte p); char c(char p, char q); short s(short p); int i(int p);
    long j(long p, long q); float f(float p); double d(double p, double q, int r);
    int[] ai(int[] p, long[][] q); String[][][] as(String[]... p); Object o(Object p, Kinds q);
    @Deprecated void old(); void $(); void _a_1(); void a$b();
}""",
    "simple/Overloads.java": """package simple;
interface Overloads {
    void m(); void m(int a); void m(long a); void m(int[] a); void m(Integer a); void m(String a, Object b);
    void m(Object a, String b); int m(double d); String toString(); boolean equals(Object o); int hashCode();
}""",
    "generic/Pair.java": """package generic;
import java.util.*;
import java.util.function.*;
public interface Pair<A extends Comparable<? super A> & java.io.Serializable, B> extends Comparable<Pair<A, B>> {
    A first(); B second();
    <C extends A, D extends List<? extends C>> Map<C, ? super D> join(Function<? super A, ? extends C> f, D... d);
    <X extends Exception> void run(Supplier<X> x) throws X, java.io.IOException, InterruptedException;
    int compareTo(Pair<A, B> other);
    Map.Entry<A, B>[][] entries(Map.Entry<A, B>[] in);
}""",
    "generic/Narrow.java": """package generic;
public interface Narrow extends java.util.concurrent.Callable<String>, AutoCloseable {
    String call() throws java.io.FileNotFoundException; void close();
}""",
    "notes/Mark.java": """package notes;
import java.lang.annotation.*;
@Retention(RetentionPolicy.RUNTIME)
@Target({ElementType.TYPE, ElementType.METHOD, ElementType.PARAMETER, ElementType.PACKAGE, ElementType.TYPE_USE,
    ElementType.TYPE_PARAMETER})
@Documented @Inherited
public @interface Mark {
    String value() default "a default"; Class<?> type() default Object.class; String[] names() default {};
    ElementType kind() default ElementType.FIELD; Other other() default @Other("x"); Other[] others() default {};
}""",
    "notes/Other.java": """package notes;
import java.lang.annotation.*;
@Retention(RetentionPolicy.CLASS) public @interface Other { String value(); }""",
    "notes/Marked.java": """package notes;
@Mark(value = "caf\\u00e9 \\ud801\\udc00 \\u0000", type = String[].class, names = {"a", "b"}, others = {@Other("1")})
public interface Marked<@Mark T extends @Mark Object> extends @Mark Comparable<@Mark T> {
    @Mark("m") @Deprecated <@Mark U> java.util.List<@Mark ? extends @Mark("t") U> m(@Mark("p") @Other("q") int a, T b);
    @Mark String @Mark [] @Mark("z") [] arrays(@Mark("q") String @Mark ... p) throws @Mark Exception;
}""",
    "notes/package-info.java": "@Mark(\"package\") package notes;",
    "nested/Outer.java": """package nested;
public interface Outer {
    interface Inner<T> { T get(Outer o); interface Deep { Inner<Deep> deep(Deep[][] d); @interface Tag { String v(); } } }
    @interface Note { String value() default ""; Inner.Deep.Tag[] tags() default {}; }
    Inner<String> inner(Inner.Deep d);
}
interface Second { Outer.Inner.Deep second(); }""",
    "dollar$sign/in$/$Name$.java": """package dollar$sign.in$;
public interface $Name$ { $Name$ $get$($Name$... $p); interface $ { $Name$.$ $(); } interface _$1 { } }""",
    "p\u00e4ck/\u65e5\u672c/Gr\u00f6\u00dfe.java": """package p\u00e4ck.\u65e5\u672c;
public interface Gr\u00f6\u00dfe { Gr\u00f6\u00dfe \u00fcber(\u540d\u524d n, \u540d\u524d[] m) throws \u00c9chec; <\u0422> \u0422 \u0442\u0438\u043f(\u0422 t);
    interface \u540d\u524d { String \U00010400\U00010401(); \u540d\u524d a\u0301(int \u03b1); } }""",
    "p\u00e4ck/\u65e5\u672c/\u00c9chec.java": "package p\u00e4ck.\u65e5\u672c; public class \u00c9chec extends Exception { }",
    "rest/Constant.java": """package rest;
public interface Constant { int K = 70000; default int d() { return K; } static void s() { } }""",
    "linked/Handles.java": """package linked;
import java.util.*;
import java.util.function.*;
public class Handles<T> extends ArrayList<T> implements Shown {
    int field; static long count;
    Supplier<List<T>> make() { return Handles::new; }
    Function<Integer, int[]> array() { return int[]::new; }
    Supplier<String> shown() { return super::toString; }
    Function<String, Integer> length() { return String::length; }
    BinaryOperator<Integer> greatest() { return Math::max; }
    Function<CharSequence, Integer> face() { return CharSequence::length; }
    Supplier<String> named() { return Shown.super::name; }
    Runnable nested(int a, long b, T c) { return () -> { Runnable r = () -> System.out.println(a + b + field + c.toString()); r.run(); }; }
    Comparator<T> compared() { return (Comparator<T> & java.io.Serializable) (a, b) -> a.hashCode() - b.hashCode(); }
    String joined(int a, long b, String c, Object d) { return a + "x" + b + c + "\\n\\u0001 REF_invokeStatic" + d + count + 'c' + 1.5; }
    public static void main(String[] all) { for (String one : all) { Runnable r = () -> { }; r.run(); new Handles<String>().forEach(x -> r.run()); } }
}
interface Shown { default String name() { return "n" + hashCode(); } static Runnable of() { return Shown::of; } }""",
    "rest/Lambda.java": "package rest; class Lambda { Runnable r() { return () -> { }; } }",
    "members/Fields.java": """package members;
import java.util.*;
public class Fields<T extends Comparable<T>> {
    static boolean z; static byte b; static char c; static short s; static int i; static long j; static float f; static double d;
    static final int K = 3; static final long KJ = 4L; static final String KS = "caf\u00e9"; static final double KD = 0.5;
    private transient volatile T t; protected final List<? extends T>[] ls; @Deprecated int[][] is; String $a_1; Inner inner;
    enum Some { ONE, TWO { int n() { return i++; } }; int n() { return ordinal(); } static Some last = TWO; }
    class Inner { T own = t; Inner next = new Inner(); class Deep extends Inner { long q = j; } Deep deep() { return new Deep(); } }
    static class Held { static Held held = new Held(); Object[] os = new Object[3]; int[][][] is = new int[2][3][]; }
    interface Has { Object O = new Object(); int[] IS = { 1, i, 2 }; List<String> L = new ArrayList<String>(7); }
    Fields(List<? extends T>[] ls) { this.ls = ls; z = !z; b += 1; c++; s--; i <<= 2; j ^= 3; f *= 2f; d /= 3d; }
    Object all(Some some) {
        Object o = new Object() { int i = Fields.i; Object p = Has.O; };
        switch (some) { case ONE: return Some.last; case TWO: return Held.held.is; default: }
        Has.L.add(KS); System.out.println(o); System.err.println(K + KJ); Has.IS[i]++; Held.held = new Held();
        assert z : new Error(); return new Fields<String>(null).new Inner().deep();
    }
}""",
    "rest/Field.java": "package rest; public interface Field { Object O = null; }",
    "rest/Number.java": "package rest; public @interface Number { int value() default 7; }",
    "rest/Native.java": "package rest; public abstract class Native { native void n(); abstract void a(); }",
    "rest/Makes.java": "package rest; class Makes { Object o() { return new Object(); } }",
    "rest/Reads.java": "package rest; class Reads { void o() { System.out.println(); } }",
    "bodies/Calls.java": """package bodies;
import java.util.*;
abstract class Calls<T extends List<String> & Runnable> extends Thread implements Comparable<Calls<T>>, Bodies {
    static { Math.abs(-1); }
    Calls(String s) { super(s); setName(s.trim()); }
    private void own() { own(); this.own(); Calls.of(3, 4L, 5f, 6d); super.toString(); Bodies.super.two(1L); }
    static int of(int i, long j, float f, double d) { return Math.max(i, (int) (j + f + d)) + Bodies.one(new int[i][3]); }
    public int compareTo(Calls<T> other) { return getName().compareTo(other.getName()); }
    synchronized void all(T list, Object[] os, int[][] is, Iterator<? extends CharSequence> it) throws Exception {
        list.get(0).length(); list.run(); os.clone(); is.clone(); is[0].clone(); os.hashCode(); os.getClass();
        while (it.hasNext()) { it.next().length(); it.next().charAt(1); }
        try { join(); } catch (InterruptedException | IllegalStateException e) { e.printStackTrace(); }
        finally { synchronized (os) { os.notifyAll(); } }
    }
    abstract void none(); native void far();
    String pick(String s, int i) {
        switch (s) { case "a": return s.trim(); case "b": s.length(); case "Aa": case "BB": return s.intern(); default: }
        switch (i) { case -3: s.length(); case -1: s.trim(); case 2: return s.intern(); default: }
        switch (i) { case Integer.MIN_VALUE: s.length(); case 0: s.trim(); case Integer.MAX_VALUE: return s.concat(s); default: }
        return i > 0 ? pick(s, i - 1) : pick(s.substring(i), -i);
    }
}""",
    "bodies/Bodies.java": """package bodies;
interface Bodies { static int one(int[][] a) { return a.length; } default long two(long a) { return a + hashCode(); } }""",
    "bodies/Paddings.java": """package bodies;
class Paddings {
%s
}""" % "\n".join("    static int p%d(int i, String s) { %s switch (i) { case 0: s.length(); case 1: return 7; default: "
                "s.trim(); } switch (i) { case 5: s.length(); case 500: return s.length(); } return p%d(i, s); }"
                % (number, "i++; s = s;" * (number // 2) + "i = 1;" * (number % 2), number) for number in range(8)),
    "bodies/Wide.java": """package bodies;
class Wide {
    static int w(String s) { %s
        v299 += 300; v298 += 1; v299 += v298; s.length(); s = s.trim(); int z = s.length(); z += 1000;
        long j = z; float f = z; double d = z; String t = s; j++; f++; d++;
        for (int i = 0; i < 3; i++) { t.length(); %s }
        return v299 + w(t) + (int) (j + f + d) + 70000; }
}""" % (" ".join("int v%d = %d;" % (number, number) for number in range(300)), "t.trim(); " * 7000),
    "Unnamed.java": "public interface Unnamed { Unnamed unnamed(Unnamed[] u); }",
}
NEWER = {
    16: {"newer/Point.java": """package newer;
public record Point<T>(int x, long y, String name, T[] more) { public Point { java.util.Objects.requireNonNull(name); }
    record Inner(double d) { } static Object of() { return new Inner(2).toString() + new Point<Object>(1, 2, "", null).hashCode(); } }"""},
    21: {"newer/Chosen.java": """package newer;
enum Chosen { A, B; static int of(Object o) { return switch (o) { case String s when s.length() > 3 -> 1; case Integer i -> i;
    case Chosen c when c == A -> 2; case int[] is -> is.length; default -> 3; }; } }"""},
    17: {"newer/Sealed.java": """package newer;
public sealed interface Sealed<T> permits Sealed.A, Sealed.B {
    T t(); non-sealed interface A extends Sealed<String> { } sealed interface B extends Sealed<Integer> { }
    non-sealed interface C extends B { } }"""},
}


def jdks():
    """The home of each JDK on the machine, each once."""
    homes = [os.path.dirname(os.path.dirname(path)) for path in glob.glob("/usr/lib/jvm/*/bin/javap")]
    for tool in ("javac", "javap"):
        found = shutil.which(tool)
        if found:
            homes.append(os.path.dirname(os.path.dirname(os.path.realpath(found))))
    if os.environ.get("JAVA_HOME"):
        homes.append(os.environ["JAVA_HOME"])
    return sorted({os.path.realpath(home) for home in homes})


def environment():
    """The environment of the JDK's tools: names and text are UTF-8."""
    words = dict(os.environ)
    words["LC_ALL"] = "C.UTF-8"
    words.pop("JAVA_TOOL_OPTIONS", None)
    return words


def compile_sources(home, folder):
    """The (path, body) pairs that a JDK's javac makes of SOURCES for each release that it knows."""
    entries = []
    for release in RELEASES:
        for more in ([], ["-parameters", "-g"]):
            name = "r%d%s" % (release, "p" if more else "")
            source = os.path.join(folder, name, "source")
            target = os.path.join(folder, name, "target")
            texts = dict(SOURCES)
            for since, added in NEWER.items():
                if release >= since:
                    texts.update(added)
            files = []
            for path, text in texts.items():
                full = os.path.join(source, path)
                os.makedirs(os.path.dirname(full), exist_ok=True)
                with open(full, "w", encoding="utf-8") as sink:
                    sink.write(text + "\n")
                files.append(full)
            done = subprocess.run(
                [os.path.join(home, "bin", "javac"), "--release", str(release), "-encoding", "UTF-8", "-nowarn",
                 "-proc:none", "-Xlint:-options", "-d", target] + more + files,
                env=environment(), stdout=subprocess.PIPE, stderr=subprocess.STDOUT, check=False)
            if done.returncode != 0:
                text = done.stdout.decode("utf-8", "replace")
                if "release version %d not supported" % release not in text:
                    measure.fail("javac --release %d: %s" % (release, text[-2000:]))
                break
            for path, body in tree(target):
                entries.append((name.encode() + b"/" + path, body))
    return entries


def tree(folder):
    """The (path, body) pairs of the class files under a folder, in the order of their paths."""
    entries = []
    top = os.fsencode(folder)
    for place, _, names in os.walk(top):
        for name in names:
            if name.endswith(b".class"):
                full = os.path.join(place, name)
                with open(full, "rb") as source:
                    entries.append((os.path.relpath(full, top), source.read()))
    return sorted(entries)


def module_classes(home, folder):
    """The (path, body) pairs of the class files of a JDK's modules."""
    jmods = sorted(glob.glob(os.path.join(home, "jmods", "*.jmod")))
    if jmods:
        entries = []
        for jmod in jmods:
            module = os.path.basename(jmod)[:-len(".jmod")].encode()
            with zipfile.ZipFile(jmod) as archive:
                for name in archive.namelist():
                    if name.startswith("classes/") and name.endswith(".class"):
                        path = module + b"/" + name[len("classes/"):].encode()
                        entries.append((path, archive.read(name)))
        return sorted(entries)
    image = os.path.join(home, "lib", "modules")
    tool = os.path.join(home, "bin", "jimage")
    if os.path.exists(image) and os.path.exists(tool):
        target = os.path.join(folder, "image")
        subprocess.run([tool, "extract", "--dir", target, image], env=environment(), check=True,
                       stdout=subprocess.DEVNULL)
        entries = tree(target)
        shutil.rmtree(target)
        return entries
    return []


def jar_classes(folders):
    """The (path, body) pairs of the class files in the jars below the folders, each body once."""
    seen = set()
    for number, jar in enumerate(jars(folders)):
        try:
            with zipfile.ZipFile(jar) as archive:
                for name in archive.namelist():
                    if name.endswith(".class"):
                        body = archive.read(name)
                        mark = hashlib.sha256(body).digest()
                        if mark not in seen:
                            seen.add(mark)
                            yield b"jar%04d/%06d.class" % (number, len(seen)), body
        except (zipfile.BadZipFile, OSError, RuntimeError, NotImplementedError, EOFError) as error:
            print("  passed over: %s: %s" % (jar, error))


def jars(folders):
    """The paths of the jars below the folders, each file once."""
    found = set()
    for folder in folders:
        for place, _, names in os.walk(os.path.expanduser(folder)):
            found.update(os.path.realpath(os.path.join(place, name)) for name in names if name.endswith(".jar"))
    return sorted(path for path in found if os.path.isfile(path))


def random_classes(count=1000):
    """The (path, body) pairs of class files of random code that are read; javap prints all of them."""
    chance = random.Random(SEED)
    bodies = [code_edges.nearly(chance) for _ in range(count)]
    return [(b"random%04d.class" % number, body) for number, body in enumerate(bodies) if plain.class_fault(body) is None]


def unescape(text):
    """The bytes of an escaped name."""
    return re.sub(rb"%([0-9A-F]{2})", lambda found: bytes([int(found.group(1), 16)]), text)


def decode(name):
    """A name of a class file as text: groups of three bytes may be halves of a pair."""
    text = name.replace(b"\xc0\x80", b"\x00").decode("utf-8", "surrogatepass")
    return text.encode("utf-16", "surrogatepass").decode("utf-16", "replace")


def listed(text):
    """The types, each with its (method, descriptor) pairs, of a text of ./fcg list."""
    types = []
    for line in text.split(b"\n"):
        if line.startswith(b"type "):
            types.append((decode(unescape(line[5:])), []))
        elif line.startswith(b"method "):
            name, paren, rest = line[7:].partition(b"(")
            types[-1][1].append((decode(unescape(name)), decode(unescape(paren + rest))))
    return types


SITE = re.compile(rb"site ([^. ]+)\.([^( ]+)(\([^ ]+) (\d+) (virtual|special|static|interface|staticfield|new|handle[5-9]) "
                  rb"([^. ]+)(?:\.([^ ]+))?")


def site_row(line):
    """The site of a line of ./fcg sites: type, method, descriptor, place, kind, owner and member of the target.

    The member is a name and a descriptor, which aren't parted in the text; it is empty for `new`.
    """
    found = SITE.fullmatch(line)
    if found is None or (found.group(5) == b"new") != (found.group(7) is None):
        measure.fail("a line of ./fcg sites was not understood: %r" % line)
    return tuple(decode(unescape(part or b"")) for part in found.groups())


def site_lines(text):
    """The lines of the sites in a text of ./fcg sites."""
    lines = text.split(b"\n")
    if lines[-2:] != [b"sites %d" % (len(lines) - 2), b""]:
        measure.fail("the last line of ./fcg sites isn't that of %d sites" % (len(lines) - 2))
    return lines[:-2]


class NotUnderstood(Exception):
    """What javap printed has another shape than is read here."""


PRINTED = re.compile(r" +(\d+): (invoke\w+|new|getstatic|putstatic)( .*)")
DYNAMIC = re.compile(r" +(\d+): invokedynamic +#\d+, +0 +// InvokeDynamic #(\d+):.*")
# a row of BootstrapMethods and one of its arguments; some are empty texts
ROW = re.compile(r"  (\d+): #\d+ (.*)")
ARGUMENT = re.compile(r"      #\d+ ?(.*)")
REFERENCES = {"REF_invokeVirtual": "handle5", "REF_invokeStatic": "handle6", "REF_invokeSpecial": "handle7",
              "REF_newInvokeSpecial": "handle8", "REF_invokeInterface": "handle9"}
NAMED = re.compile(r" +#\d+(?:, +\d+)? +// (Method|InterfaceMethod|Field|class) (.*)")
QUOTED = r'"(?:[^"\\]|\\.)*"|[^".:]+'
TARGET = re.compile(r"(?:(%s)\.)?(%s):(.*)" % (QUOTED, QUOTED))
TYPE = re.compile(QUOTED)
BOTH = "Method", "InterfaceMethod"
KINDS = {"invokevirtual": ("virtual", BOTH[:1]), "invokespecial": ("special", BOTH), "invokestatic": ("static", BOTH),
         "invokeinterface": ("interface", BOTH[1:]), "new": ("new", ("class",)), "getstatic": ("staticfield", ("Field",)),
         "putstatic": ("staticfield", ("Field",))}


def unquoted(text):
    """A name as javap prints it, without its quotes."""
    if text is None or text[0] != '"':
        return text
    return re.sub(r"\\(.)", lambda found: {"n": "\n", "t": "\t"}.get(found.group(1), found.group(1)), text[1:-1])


def printed_site(line):
    """The place, kind, owner and member in a line of javap, or None where it is no site.

    The owner is None where javap leaves it out, since it is the class itself. Of an `invokedynamic` it is the
    number of its bootstrap method.
    """
    found = PRINTED.fullmatch(line)
    if found is None:
        return None
    dynamic = DYNAMIC.fullmatch(line)
    if dynamic is not None:
        return dynamic.group(1), None, int(dynamic.group(2)), ""
    place, word, rest = found.groups()
    kind, tags = KINDS.get(word, (None, ()))
    named = NAMED.fullmatch(rest)
    if named is None or named.group(1) not in tags:
        raise NotUnderstood("a site: " + line)
    if kind == "new":
        if TYPE.fullmatch(named.group(2)) is None:
            raise NotUnderstood("a type: " + line)
        return place, kind, unquoted(named.group(2)), ""
    target = TARGET.fullmatch(named.group(2))
    if target is None or (target.group(3)[0] == "(") != (kind != "staticfield"):
        raise NotUnderstood("a target: " + line)
    owner, name, descriptor = target.groups()
    return place, kind, unquoted(owner), unquoted(name) + descriptor


def handle_site(text):
    """The kind, owner and member of a method handle as javap prints it, or None where it calls no method."""
    word, _, rest = text.partition(" ")
    if word not in REFERENCES:
        return None
    target = TARGET.fullmatch(rest)
    if target is None or target.group(3)[0] != "(":
        raise NotUnderstood("a handle: " + text)
    owner, name, descriptor = target.groups()
    return REFERENCES[word], unquoted(owner), unquoted(name) + descriptor


def printed_rows(text):
    """The rows of BootstrapMethods of each class file in a text of javap -v: of each row the handles that call methods."""
    files = []
    inside = False
    for line in text.split("\n"):
        if line.startswith("Classfile "):
            files.append([])
        if not line.startswith(" "):
            inside = line == "BootstrapMethods:"
            continue
        if not inside or line == "    Method arguments:":
            continue
        row, argument = ROW.fullmatch(line), ARGUMENT.fullmatch(line)
        if row is not None and int(row.group(1)) == len(files[-1]):
            files[-1].append([])
        elif argument is None or not files[-1]:
            raise NotUnderstood("a row of bootstrap methods: " + line)
        site = handle_site((row or argument).group(row.lastindex if row else 1))
        if site is not None:
            files[-1][-1].append(site)
    return files


def printed(text):
    """The types of a text of javap -c -s -p: each its first line, its fields and its methods.

    A field is its line and its descriptor, a method these and its sites. Of a module the first line alone is told.
    """
    types = []
    member = None
    for line in text.split("\n"):
        if line.startswith("Compiled from ") or line == "}" or not line:
            continue
        if not line.startswith(" "):
            if not line.endswith("{"):
                raise NotUnderstood("a line: " + line)
            types.append((line, [], []))
        elif line.startswith("    descriptor: "):
            if member is None:
                raise NotUnderstood("a descriptor without a member: " + line)
            descriptor = line[len("    descriptor: "):]
            if descriptor[:1] == "(":
                types[-1][2].append((member, descriptor, []))
            else:
                types[-1][1].append((member, descriptor))
            member = None
        elif line[2:3] != " ":
            member = line
        else:
            site = printed_site(line)
            if site is not None:
                types[-1][2][-1][2].append(site)
    return types


def javap_words(home, words):
    """The words of a run of a JDK's javap."""
    return [os.path.join(home, "bin", "javap"), "-J-Dfile.encoding=UTF-8", "-J-Dstdout.encoding=UTF-8",
            "-J-Dsun.stdout.encoding=UTF-8"] + words


def javap_files(home, files, words=("-c", "-s", "-p"), read=printed):
    """What is read of the text that javap prints of each class file; for those that it does not print why, as text."""
    done = subprocess.run(javap_words(home, list(words)) + files, env=environment(),
                          stdout=subprocess.PIPE, stderr=subprocess.PIPE, check=False)
    text = done.stdout.decode("utf-8", "replace")
    why = (done.stderr.decode("utf-8", "replace") or text)[:200].replace("\n", " ")
    if done.returncode == 0 and not done.stderr:
        try:
            found = read(text)
            if len(found) == len(files):
                return found
        except NotUnderstood as error:
            why = str(error)
    if len(files) == 1:
        return [why]
    half = len(files) // 2
    return javap_files(home, files[:half], words, read) + javap_files(home, files[half:], words, read)


def has_dynamic(kind):
    """Whether a type that javap prints has an `invokedynamic`."""
    return any(site[1] is None for _, _, sites in kind[2] for site in sites)


def javap_types(home, files):
    """As javap_files, each with its rows of BootstrapMethods where it has an `invokedynamic`; both may be why not."""
    types = javap_files(home, files)
    linked = [path for path, kind in zip(files, types) if not isinstance(kind, str) and has_dynamic(kind)]
    rows = iter(javap_files(home, linked, ("-v", "-p"), printed_rows) if linked else [])
    return [(kind, next(rows) if not isinstance(kind, str) and has_dynamic(kind) else []) for kind in types]


def batches(folder, bodies, size=400):
    """The paths of files of the bodies, some at a time; they are removed when the next ones are made."""
    for start in range(0, len(bodies), size):
        files = [measure.write(folder, "c%06d.class" % (start + index), body)
                 for index, body in enumerate(bodies[start:start + size])]
        yield files
        for path in files:
            os.remove(path)


def compare_plain(label, path, views, command, alone):
    """Compares the text of a command of ./fcg with that of plain.py for a bundle's views; gives it."""
    want = 0, b"".join(plain.LINES[command]([view for view in views if not view.module])), b""
    got = want if alone else measure.run_file(path, measure.COMMANDS[command])
    if got == want:
        print("  %s of %s: status %d, %d bytes out, %s"
              % (command, "plain.py" if alone else "./fcg equal to plain.py", got[0], len(got[1]),
                 got[1][-60:].split(b"\n")[-2].decode() if got[1] else ""), flush=True)
        return got[1]
    for index, (one, other) in enumerate(zip(got[1].split(b"\n"), want[1].split(b"\n"))):
        if one != other:
            print("  line %d: fcg %r, plain.py %r" % (index + 1, one, other))
            break
    measure.fail("%s, %s: fcg status %d, %d bytes, %r; plain.py status %d, %d bytes, %r"
                 % (label, command, got[0], len(got[1]), got[2], want[0], len(want[1]), want[2]))


def is_heading(line, name):
    """Whether a line of javap begins a type of this name."""
    return re.search("(?:^| )(?:@?interface|class|enum) %s[ <{]" % re.escape(name.replace("/", ".")), line) is not None


def is_member(line, name, method):
    """Whether a line of javap is a method of this name of the type `name`."""
    if method == "<clinit>":
        return line.endswith(" {};")
    return " %s(" % (name.replace("/", ".") if method == "<init>" else method) in line


def compare_fields(label, name, fields, others):
    """Compares the fields of a type with javap's."""
    if len(fields) != len(others):
        measure.fail("%s: %s: plain.py reads %d fields, javap %d" % (label, name, len(fields), len(others)))
    for field, (line, other) in zip(fields, others):
        own, descriptor = map(decode, field)
        if descriptor != other or not line.endswith(" %s;" % own):
            measure.fail("%s: %s: plain.py reads %s%s, javap %s with %s" % (label, name, own, descriptor, line, other))


def compare_type(label, ours, theirs, linked):
    """Compares a type and its methods with javap's; gives the sites of javap, those of the rows among them."""
    name, members = ours
    line, _, others = theirs
    if not is_heading(line, name):
        measure.fail("%s: fcg lists the type %s, javap %s" % (label, name, line))
    if len(members) != len(others):
        measure.fail("%s: %s: fcg lists %d methods, javap %d" % (label, name, len(members), len(others)))
    rows = []
    for (method, descriptor), (shown, other, sites) in zip(members, others):
        if descriptor != other or not is_member(shown, name, method):
            measure.fail("%s: %s: fcg lists %s%s, javap %s with %s" % (label, name, method, descriptor, shown, other))
        for place, kind, owner, member in sites:
            some = [(kind, owner, member)]
            if kind is None:
                some = linked[owner] if owner < len(linked) else measure.fail("%s: %s: javap has no row %d" % (label, name, owner))
            rows += [(name, method, descriptor, place, one, whose or name, what) for one, whose, what in some]
    return rows


def compare_sites(label, lines, want):
    """Compares the lines of the sites of a type with its sites of javap."""
    for line, site in zip(lines, want):
        row = site_row(line)
        if row != site:
            measure.fail("%s: a site of fcg: %r; of javap: %r" % (label, row, site))
    if len(lines) != len(want):
        measure.fail("%s: fcg has %d sites, javap %d, after %r" % (label, len(lines), len(want), (want + [None])[0]))


def told(views, list_text, sites_text):
    """What the texts of ./fcg say of each view: the type with its methods, and the lines of its sites; None of a module."""
    types = iter(listed(list_text))
    lines = iter(site_lines(sites_text))
    for view in views:
        if view.module:
            yield None
        else:
            yield next(types), list(itertools.islice(lines, plain.count_sites(view)))
    if next(types, None) or next(lines, None):
        measure.fail("fcg prints types or sites of a module")


def compare_one(label, view, ours, theirs, linked, counts):
    """Compares what ./fcg told of one class file with what javap prints of it."""
    if view.module:
        if MODULE.fullmatch(theirs[0]) is None:
            measure.fail("%s: fcg passes over a module, javap %s" % (label, theirs[0]))
        counts["modules"] += 1
        return
    sites = compare_type(label, ours[0], theirs, linked)
    compare_sites(label, ours[1], sites)
    compare_fields(label, ours[0][0], view.fields, theirs[1])
    counts.update(types=1, fields=len(view.fields), methods=len(view.methods), sites=len(ours[1]),
                  handles=sum(site[4].startswith("handle") for site in sites))


MODULE = re.compile(r"(?:open )?module \S+ \{")


def compare_javap(label, home, folder, bodies, views, texts, step):
    """Compares each `step`-th class file's part of the texts of ./fcg with javap's text."""
    ours = list(told(views, *texts))[::step]
    some = bodies[::step]
    counts = collections.Counter()
    causes = []
    rows = zip(views[::step], ours)
    for files in batches(folder, some):
        for theirs, linked in javap_types(home, files):
            view, own = next(rows)
            if isinstance(theirs, str) or isinstance(linked, str):
                causes.append(theirs if isinstance(theirs, str) else linked)
            else:
                compare_one(label, view, own, theirs, linked, counts)
    for cause in sorted(set(causes))[:5]:
        print("  not printed by javap: " + cause)
    if len(causes) * 100 > len(some):
        measure.fail("%s: javap does not print %d of %d class files" % (label, len(causes), len(some)))
    print("  equal to javap -c -s -p, and -v, of %s: %s; class files that it doesn't print: %d of %d"
          % (os.path.basename(home), " ".join("%s %d" % count for count in sorted(counts.items())), len(causes), len(some)),
          flush=True)


def compare_refused(label, others, options):
    """Compares ./fcg with plain.py on bundles of one class file each that is refused, and of all with the last one."""
    for path, body in others.some[:options.refused]:
        bundle = plain.pack([(path, body)])
        want = plain.answer(bundle)
        for words in [] if options.alone else measure.COMMANDS.values():
            got = measure.run_bytes(bundle, words)
            if got != want:
                measure.fail("%s: %r alone: fcg %r, plain.py %r" % (label, path, got, want))
    print("  class files that are refused: %s; of these %d alone in a bundle"
          % (" ".join("%s %d" % count for count in sorted(others.counts.items())) or "none",
             len(others.some[:options.refused])), flush=True)


def time_beside_cat(path):
    """Times the commands of ./fcg beside cat and prints the least of five each."""
    cats, _ = measure.least(path, measure.CAT)
    for command, words in measure.COMMANDS.items():
        ours, _ = measure.least(path, words)
        print("  %d bytes: ./fcg %s %.4f s, cat %.4f s, %.1f times (least of five)"
              % (os.path.getsize(path), command, ours, cats, ours / cats), flush=True)


def time_javap(home, folder, bodies):
    """Times javap over the class files once and prints it."""
    took = 0.0
    for files in batches(folder, bodies):
        begin = time.perf_counter()
        subprocess.run(javap_words(home, ["-c", "-p"]) + files, env=environment(), stdout=subprocess.DEVNULL,
                       stderr=subprocess.DEVNULL, check=False)
        took += time.perf_counter() - begin
    print("  javap -c -p of %s over the same %d class files: %.2f s (one run, 400 class files at a time)"
          % (os.path.basename(home), len(bodies), took), flush=True)


class Others:
    """The class files of a group that are refused: some of them, and how many by rule."""

    def __init__(self):
        self.some = []
        self.counts = collections.Counter()

    def add(self, label, path, body, fault):
        """Counts one, and keeps every tenth; one that isn't refused by its version is kept and printed."""
        is_newer = major(body) > GREATEST
        if is_newer != ((fault.rule, fault.offset, fault.index) == ("Version", 6, 0)) and 45 <= major(body):
            measure.fail("%s: %r of the version %d: %s" % (label, path, major(body), fault))
        if not is_newer:
            print("  refused: %r of the version %d: %s" % (path, major(body), fault), flush=True)
        if not is_newer or self.counts[fault.rule] % 10 == 0:
            self.some.append((path, body))
        self.counts[fault.rule] += 1


def pieces(label, entries, size, others):
    """The entries that are read in order, each its path, body and view; those that are refused go to `others`.

    They are parted so that no bundle has more than `size` bytes but by one entry.
    """
    part = []
    total = 0
    for path, body in entries:
        try:
            view = plain.read_class(body)
        except plain.ClassFault as fault:
            others.add(label, path, body, fault)
            continue
        if part and total + len(path) + len(body) > size:
            yield part
            part = []
            total = 0
        part.append((path, body, view))
        total += 6 + len(path) + len(body)
    if part:
        yield part


def compare_piece(label, home, folder, part, options, step):
    """Compares and times one bundle of the class files of a group that are read."""
    bodies = [body for _, body, _ in part]
    views = [view for _, _, view in part]
    bundle = plain.pack([(path, body) for path, body, _ in part])
    print("%s: %d class files in a bundle of %d bytes" % (label, len(part), len(bundle)), flush=True)
    path = measure.write(folder, "bundle", bundle)
    texts = [compare_plain(label, path, views, command, options.alone) for command in measure.COMMANDS]
    compare_javap(label, home, folder, bodies, views, texts, step)
    if not options.alone:
        time_beside_cat(path)
        time_javap(home, folder, bodies[::step][:TIMED])


def group(label, home, folder, entries, options, step=1):
    """Compares and times one group of class files with javap; gives the paths and bodies of those that are read.

    Each `step`-th class file is compared with javap.
    """
    good = []
    others = Others()
    for part in pieces(label, entries, options.size, others):
        compare_piece(label, home, folder, part, options, step)
        good += [(path, body) for path, body, _ in part]
    print("%s: %d class files, of which %d are read"
          % (label, len(good) + sum(others.counts.values()), len(good)), flush=True)
    compare_refused(label, others, options)
    return good


def repeat(entries, size):
    """The entries again and again under other folders until their bundle has about `size` bytes."""
    out = []
    total = 10
    for number in range(1, 100000):
        front = b"d%04d/" % number
        for path, body in entries:
            total += 6 + len(front) + len(path) + len(body)
            if total > size:
                return out
            out.append((front + path, body))
    return out


def major(body):
    """The major version of a class file."""
    return int.from_bytes(body[6:8], "big")


def words():
    """The options of the script."""
    parser = argparse.ArgumentParser(description=__doc__, formatter_class=argparse.RawDescriptionHelpFormatter)
    parser.add_argument("--refused", type=int, default=100,
                        help="how many class files of a group that are refused are tried alone (100)")
    parser.add_argument("--size", type=int, default=WEIGHTY, help="bytes of the weighty bundle (60000000)")
    parser.add_argument("--jars", nargs="*", default=JAR_FOLDERS, metavar="FOLDER",
                        help="the folders whose jars are read (%s); those that aren't there are passed over"
                             % " ".join(JAR_FOLDERS))
    parser.add_argument("--share", type=int, default=SHARE, metavar="NUMBER",
                        help="of the jars, and of all JDKs but the oldest, each NUMBERth class file is compared with javap (%d)"
                             % SHARE)
    parser.add_argument("--groups", nargs="*", metavar="WORD", help="only the groups with one of these words in their names")
    parser.add_argument("--alone", action="store_true", help="compare plain.py itself with javap, without ./fcg")
    return parser.parse_args()


def home_groups(homes, folder):
    """The groups of each JDK: their names, its home, their class files as a function, and whether the share is enough."""
    for number, home in enumerate(homes):
        name = os.path.basename(home)
        yield ("javac of " + name, home,
               lambda h=home, n=number: compile_sources(h, os.path.join(folder, "javac%d" % n)), False)
        yield "modules of " + name, home, lambda h=home: module_classes(h, folder), number > 0
        yield "newer modules of %s, written as %d" % (name, GREATEST), home, lambda h=home: older(module_classes(h, folder)), True


def written_as(body, version):
    """A class file with another major version."""
    return body[:6] + version.to_bytes(2, "big") + body[8:]


def older(entries):
    """Those of the entries that are newer than a class file may be, with the greatest major version that it may have."""
    return [(path, written_as(body, GREATEST)) for path, body in entries if major(body) > GREATEST]


def base(home, folder):
    """The class files of the module java.base, none newer than a class file may be."""
    entries = [entry for entry in module_classes(home, folder) if entry[0].startswith(b"java.base/")]
    return [(path, written_as(body, min(major(body), GREATEST))) for path, body in entries]


def time_base(home, folder, options):
    """Times the commands over java.base beside cat, plain.py and javap."""
    entries = base(home, folder)
    print("java.base of %s: %d class files" % (os.path.basename(home), len(entries)), flush=True)
    path = measure.write(folder, "base", plain.pack(entries))
    if not options.alone:
        time_beside_cat(path)
    begin = time.perf_counter()
    plain.answer(plain.pack(entries), "sites")
    print("  plain.py sites: %.2f s (one run, without its start)" % (time.perf_counter() - begin))
    time_javap(home, folder, [body for _, body in entries])


def all_groups(homes, folder, options):
    """Compares every group that is asked for; gives the class files of each javac that are read."""
    made = []
    rest = [("random code", homes[0], random_classes, False),
            ("jars", homes[-1], lambda: jar_classes(options.jars), True)]
    for label, home, build, share in itertools.chain(home_groups(homes, folder), rest):
        if options.groups and not any(word in label for word in options.groups):
            continue
        step = options.share if share else 1
        good = group(label, home, folder, build(), options, step)
        if label.startswith("javac"):
            made += [(home.encode().replace(b"/", b"_") + b"/" + path, body) for path, body in good]
    return made


def weighty(folder, entries, options):
    """Compares and times one bundle of entries repeated, but for those of very many sites."""
    entries = repeat([entry for entry in entries if plain.count_sites(plain.read_class(entry[1])) < MANY], options.size)
    bundle = plain.pack(entries)
    print("those of each javac, repeated: %d class files, a bundle of %d bytes" % (len(entries), len(bundle)), flush=True)
    path = measure.write(folder, "bundle", bundle)
    found = plain.views(bundle)
    for command in measure.COMMANDS:
        compare_plain("repeated", path, found, command, options.alone)
    if not options.alone:
        time_beside_cat(path)


def main():
    """Runs every group."""
    options = words()
    homes = jdks()
    if not homes:
        print("no JDK found")
        return 1
    begin = time.monotonic()
    with tempfile.TemporaryDirectory() as folder:
        if not options.alone:
            measure.ready()
            print("start of a process, a bundle without entries:")
            time_beside_cat(measure.write(folder, "empty", plain.pack([])))
        for home in homes:
            if options.groups is None or any(word in "java.base of " + os.path.basename(home) for word in options.groups):
                time_base(home, folder, options)
        made = all_groups(homes, folder, options)
        if made:
            weighty(folder, made, options)
    print("no difference, %.0f s" % (time.monotonic() - begin))
    return 0


if __name__ == "__main__":
    sys.exit(main())
