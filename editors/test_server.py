#!/usr/bin/env python3
"""Plays clients of titan_lsp: a session in order, other orders, invalid messages, and input that is no message at all.

    test_server.py PROGRAM

Prints each check that fails, and at last how many passed; the status is 1 if one failed, else 0.
"""
import json
import re
import subprocess
import sys
import time
from pathlib import Path

PROGRAM = sys.argv[1]
GOOD = "class Main { public static single void main(String[] args) { println(1); } }\n"
BAD = (
    "class Main {\n  public static single void main(String[] args) {\n"
    "    /* \u00e9\U0001F600 */ int rounds = broadcast 3 from 0;\n"
    "    for (int single round = 0; round < rounds; round++) { Ti.barrier(); }\n  }\n}\n"
)
STRAY = "class Main {\n  /* \u00e9\U0001F600 */ ? \n}\n"
URI = "file:///a.ti"
RESERVED = set("""boolean break broadcast class continue Domain else false final for foreach if int local long new null Point println private
    protected public RectDomain return SharedRegion single static String System this Ti true void while""".split())
failed = []
count = 0


def message(content):
    content = content if isinstance(content, bytes) else json.dumps(content).encode()
    return b"Content-Length: %d\r\n\r\n" % len(content) + content


def request(id, method, params=None):
    value = {"jsonrpc": "2.0", "id": id, "method": method}
    if params is not None:
        value["params"] = params
    return message(value)


def notification(method, params=None):
    value = {"jsonrpc": "2.0", "method": method}
    if params is not None:
        value["params"] = params
    return message(value)


def initialize(**capabilities):
    params = {"processId": None, "rootUri": None, "capabilities": capabilities}
    return request(1, "initialize", params) + notification("initialized", {})


END = request(99, "shutdown") + notification("exit")


def opened(uri, text, version=1):
    document = {"uri": uri, "languageId": "titan", "version": version, "text": text}
    return notification("textDocument/didOpen", {"textDocument": document})


def changed(uri, version, *changes):
    changes = [{"text": c} if isinstance(c, str) else c for c in changes]
    document = {"uri": uri, "version": version}
    return notification("textDocument/didChange", {"textDocument": document, "contentChanges": changes})


def span(line, start, end, end_line=None):
    last = line if end_line is None else end_line
    return {"start": {"line": line, "character": start}, "end": {"line": last, "character": end}}


def run(data, timeout=120):
    """The messages that the server writes for these bytes, its status, and its standard error."""
    process = subprocess.run([PROGRAM], input=data, capture_output=True, timeout=timeout)
    out, messages = process.stdout, []
    while out:
        header, found, rest = out.partition(b"\r\n\r\n")
        assert found and header.startswith(b"Content-Length: "), out[:80]
        length = int(header[16:])
        assert len(rest) >= length, (length, len(rest))
        messages.append(json.loads(rest[:length].decode("utf-8")))
        out = rest[length:]
    return messages, process.returncode, process.stderr.decode("utf-8", "replace")


def check(name, found, wanted):
    global count
    count += 1
    if found != wanted:
        failed.append(name)
        print("FAILED", name, "\n  found ", found, "\n  wanted", wanted)


def errors(messages):
    return [(m.get("id"), m["error"]["code"]) for m in messages if "error" in m]


def published(messages):
    return [m["params"] for m in messages if m.get("method") == "textDocument/publishDiagnostics"]


def applied(text, edits):
    """The text with edits, whose positions are in UTF-16."""
    def offset(at):
        lines = text.split("\n")
        line = lines[at["line"]].encode("utf-16-le")[:2 * at["character"]].decode("utf-16-le")
        return sum(len(l) + 1 for l in lines[:at["line"]]) + len(line)
    for edit in reversed(edits):
        start, end = offset(edit["range"]["start"]), offset(edit["range"]["end"])
        text = text[:start] + edit["newText"] + text[end:]
    return text


# ---- a session in order
m, status, err = run(initialize() + opened(URI, BAD) + changed(URI, 2, GOOD) + END)
check("status", (status, err), (0, ""))
check("messages", len(m), 4)
capabilities = m[0]["result"]["capabilities"]
check("encoding", capabilities["positionEncoding"], "utf-16")
check("synchronization", capabilities["textDocumentSync"], {"openClose": True, "change": 2})
d = m[1]["params"]["diagnostics"]
check("one diagnostic", len(d), 1)
check("diagnostic", (d[0]["code"], d[0]["severity"], d[0]["source"], d[0]["message"]),
      ("S2", 1, "titan", "a loop with global effects needs a single condition"))
check("range", d[0]["range"], span(3, 4, 7))
check("version", (m[1]["params"]["uri"], m[1]["params"]["version"]), (URI, 1))
check("changed", (m[2]["params"]["diagnostics"], m[2]["params"]["version"]), ([], 2))
check("shutdown", m[3], {"jsonrpc": "2.0", "id": 99, "result": None})

# ---- position encodings
line = STRAY.split("\n")[1]
before = line[:line.index("?")]
units = {"utf-8": len(before.encode()), "utf-16": len(before.encode("utf-16-le")) // 2, "utf-32": len(before)}
for offered, chosen in [(None, "utf-16"), (["utf-16"], "utf-16"), (["utf-16", "utf-8"], "utf-8"),
                        (["utf-32", "utf-16"], "utf-32"), (["utf-7"], "utf-16")]:
    general = {} if offered is None else {"general": {"positionEncodings": offered}}
    m, _, _ = run(initialize(**general) + opened(URI, STRAY) + END)
    found = published(m)[0]["diagnostics"][0]
    check("encoding of %s" % offered, m[0]["result"]["capabilities"]["positionEncoding"], chosen)
    check("columns of %s" % chosen, (found["code"], found["range"]["start"]), ("X1", {"line": 1, "character": units[chosen]}))
    check("one character in %s" % chosen, found["range"]["end"]["character"], units[chosen] + 1)

# ---- incremental changes: the text that they make is seen by its diagnostics
def after(*changes, text=BAD, encoding="utf-16"):
    m, _, _ = run(initialize(general={"positionEncodings": [encoding]}) + opened(URI, text) + changed(URI, 2, *changes) + END)
    return [x["code"] for x in published(m)[-1]["diagnostics"]]

at_rounds = before_rounds = BAD.split("\n")[2].index("rounds")
for encoding in ["utf-8", "utf-16", "utf-32"]:
    prefix = BAD.split("\n")[2][:at_rounds]
    column = {"utf-8": len(prefix.encode()), "utf-16": len(prefix.encode("utf-16-le")) // 2, "utf-32": len(prefix)}[encoding]
    check("insertion in " + encoding, after({"range": span(2, column, column), "text": "single "}, encoding=encoding), [])
check("two insertions", after({"range": span(0, 0, 0), "text": "// a comment\n"}, {"range": span(3, 18, 18), "text": "single "}), [])
check("replacement over lines", after({"range": span(2, 0, 0, 4), "text": ""}), [])
check("deletion of all", after({"range": span(0, 0, 0, 99), "text": ""}), ["N3"])
check("a position after the line's end", after({"range": span(2, 9999, 9999), "text": " "}), ["S2"])
check("a position after the text", after({"range": span(99, 0, 0), "text": "?"}), ["X1"])
check("an end before its start", after({"range": span(3, 9, 2), "text": ""}), ["S2"])
check("a whole text last", after({"range": span(0, 0, 3), "text": "?"}, GOOD), [])

# ---- versions
m, _, _ = run(initialize() + opened(URI, GOOD, 5) + changed(URI, 5, BAD) + changed(URI, 4, BAD) + changed(URI, 6, BAD)
              + changed("file:///b.ti", 1, BAD) + END)
check("late changes are ignored", [(p["version"], len(p["diagnostics"])) for p in published(m)], [(5, 0), (6, 1)])

# ---- hover and code actions
document = {"uri": URI}
at = {"textDocument": document, "position": {"line": 3, "character": 5}}
away = {"textDocument": document, "position": {"line": 0, "character": 5}}
elsewhere = {"textDocument": {"uri": "file:///b.ti"}, "position": {"line": 0, "character": 0}}


def action(**context):
    return {"textDocument": document, "range": span(3, 4, 7), "context": {"diagnostics": d, **context}}


m, status, _ = run(initialize() + opened(URI, BAD) + request("h", "textDocument/hover", at) + request(3, "textDocument/hover", away)
                   + request(4, "textDocument/codeAction", action()) + request(5, "textDocument/hover", elsewhere)
                   + request(6, "textDocument/hover", {}) + request(7, "textDocument/completion", {})
                   + request(8, "textDocument/codeAction", action(only=["refactor"])) + END)
by = {x["id"]: x for x in m if "id" in x}
check("hover", by["h"]["result"]["contents"]["value"].split("\n\n")[0], "**S2** a loop with global effects needs a single condition")
check("help in a hover", by["h"]["result"]["contents"]["value"].count("\n\nHelp: "), 1)
check("hover away", by[3]["result"], None)
check("hover elsewhere", by[5]["result"], None)
check("hover without a position", by[6]["error"]["code"], -32602)
check("unknown method", by[7]["error"]["code"], -32601)
check("no action of this kind", by[8]["result"], [])
found = by[4]["result"][0]
check("action", (found["title"], found["kind"]), ("Insert `single` where it belongs", "quickfix"))
edits = found["edit"]["changes"][URI]
check("small edit", [e["newText"] for e in edits], ["single "])
check("fixed", applied(BAD, edits), BAD.replace("int rounds", "int single rounds"))


def fixed(text):
    m, _, _ = run(initialize() + opened(URI, text) + request(4, "textDocument/codeAction", action(only=["source.fixAll"])) + END)
    result = next(x for x in m if x.get("id") == 4)["result"]
    if not result:
        return None
    check("kind", result[0]["kind"], "source.fixAll")
    new = applied(text, result[0]["edit"]["changes"][URI])
    m, _, _ = run(initialize() + opened(URI, new) + END)
    check("the fixed text is accepted", published(m)[0]["diagnostics"], [])
    return new


METHODS = ("class Main {\n  static int three(int n) { while (n > 0) { Ti.barrier(); n = n - 1; } return n + 3; }\n"
           "  public static single void main(String[] args) { int k = three(2); if (k > 1) { Ti.barrier(); } }\n}\n")
check("methods", fixed(METHODS), METHODS.replace("static int three(int n)", "static single int single three(int single n)").replace("int k", "int single k"))
WRONG = "class Main {\n  public static single void main(String[] args) { int single k = Ti.thisProc(); println(k); }\n}\n"
check("a wrong `single` is removed", fixed(WRONG), WRONG.replace("int single k", "int k"))
NO_FIX = "class Main {\n  public static single void main(String[] args) { if (Ti.thisProc() == 0) Ti.barrier(); }\n}\n"
check("no fix", fixed(NO_FIX), None)

# ---- names: at each position of a text, what is known belongs to the name there, and the declaration is spelled alike
NAMES = ("class Node {\n  int count; Node next; Node [1d] nodes;\n  Node find(int by) { Node n = this; n = n.next; return nodes[by].next; }\n"
         "  static int twice(int n) { int m = n; { int k = 1; m = m + k; } return m; }\n}\nclass Main {\n"
         "  public static single void main(String[] args) {\n    Node node = new Node();\n    for (int i = 0; i < 3; i++) node.count = i;\n"
         "    foreach (p in [0:3]) { println(p[1]); }\n    int t = Node.twice(2);\n    println(node.find(t).next.nodes[2].count);\n  }\n}\n")


def names(text):
    """The offsets at which a definition is found, with what is declared there; the text has one byte for each character."""
    lines = text.split("\n")
    asked = [(line, column) for line in range(len(lines)) for column in range(len(lines[line]) + 1)]
    parts = [request(i, "textDocument/" + method, {"textDocument": document, "position": {"line": line, "character": column}})
             for i, (line, column) in enumerate(asked, 100) for method in ["definition", "hover"]]
    m, status, _ = run(initialize() + opened(URI, text) + b"".join(parts) + END)
    found = [x["result"] for x in m if x.get("id", 0) in range(100, 100 + len(asked)) and "result" in x]
    known = {}
    for (line, column), definition, hover in zip(asked, found[::2], found[1::2]):
        if definition is None:
            continue
        part = lambda at: lines[at["start"]["line"]][at["start"]["character"]:at["end"]["character"]]
        check("a hover where there is a definition", hover is not None, True)
        if hover is not None and not hover["contents"]["value"].startswith("**"):
            at = hover["range"]
            check("spelled alike", part(definition["range"]), part(at))
            check("at the name", at["start"]["line"] == line and at["start"]["character"] <= column <= at["end"]["character"], True)
        known[line, column] = part(definition["range"]), definition["range"]["start"]["line"]
    check("all are answered", (len(found), status), (2 * len(asked), 0))
    return known


found = names(NAMES)
check("what is known", sorted({name for name, _ in found.values()}),
      ["Main", "Node", "by", "count", "find", "i", "k", "m", "main", "n", "next", "node", "nodes", "p", "t", "twice"])
for odd in [NAMES.replace(";", "", 3), NAMES.replace("}", ""), NAMES.replace("{", ""), NAMES.replace("(", ""), NAMES.replace(")", "]"), NAMES[::-1],
            "class class C { C C() ; C C = C . C ( C ) [ C ] . C", ". . x ) . x ] . x } . x", "class A { A a; A f() { A a = a.a.f().a; a = f().f(); } }"]:
    names(odd.replace("\n\n", "\n"))

# each name of these programs is known, but for words of the grammar, built-in members and the parameter of `main`
WORDS = {"Ti", "in", "from", "barrier", "thisProc", "numProcs", "exchange", "copy", "domain", "size", "min", "max", "contains", "restrict", "translate",
         "slice", "delete", "out", "args"}
TOKENS = re.compile(r'//[^\n]*|/\*.*?\*/|"(?:[^"\\]|\\.)*"|\d\w*|([A-Za-z_]\w*)', re.S)
PROGRAMS = sorted((Path(__file__).resolve().parent.parent / "crates/ti_rows_of_texts/data/porting").glob("*.ti"))
for path in PROGRAMS:
    text = path.read_text()
    if not text.isascii():
        continue
    found = [(m[1], text.count("\n", 0, m.start()), m.start() - text.rfind("\n", 0, m.start()) - 1) for m in TOKENS.finditer(text) if m[1]]
    parts = [request(i, "textDocument/definition", {"textDocument": document, "position": {"line": line, "character": column}})
             for i, (_, line, column) in enumerate(found, 100)]
    m, status, _ = run(initialize() + opened(URI, text) + b"".join(parts) + END)
    unknown = {found[x["id"] - 100][0] for x in m if x.get("id", 0) >= 100 and x["result"] is None}
    check("names of " + path.name, unknown - WORDS - RESERVED, set())

# ---- symbols
DECLARED = "class Node {\n  int count;\n  Node next;\n  void add(int by) { count = count + by; }\n}\n" + BAD
m, _, _ = run(initialize() + opened(URI, DECLARED) + request(2, "textDocument/documentSymbol", {"textDocument": document})
              + request(3, "textDocument/documentSymbol", {"textDocument": {"uri": "file:///b.ti"}}) + opened(URI, STRAY)
              + request(4, "textDocument/documentSymbol", {"textDocument": document}) + END)
by = {x["id"]: x for x in m if "id" in x}
check("symbols", [(x["name"], x["kind"]) for x in by[2]["result"]],
      [("Node", 5), ("count", 8), ("next", 8), ("add", 6), ("Main", 5), ("main", 6)])
check("range of a symbol", by[2]["result"][3]["location"], {"uri": URI, "range": span(3, 7, 10)})
check("symbols elsewhere", by[3]["result"], None)
check("symbols without tokens", by[4]["result"], [])

# ---- other orders
m, status, _ = run(request(1, "shutdown") + request(2, "textDocument/hover", at) + opened(URI, BAD) + END)
check("before initialize", (errors(m), status), ([(1, -32002), (2, -32002), (99, -32002)], 1))
m, status, _ = run(initialize() + request(2, "initialize", {}) + request(3, "shutdown") + request(4, "textDocument/hover", at)
                   + request(5, "nonsense") + opened(URI, BAD) + notification("exit"))
check("after shutdown", (errors(m), status, len(m)), ([(2, -32600), (4, -32600), (5, -32600)], 0, 5))
m, status, _ = run(initialize() + notification("exit") + opened(URI, BAD))
check("exit without shutdown", (len(m), status), (1, 1))
m, status, _ = run(initialize() + notification("$/cancelRequest", {"id": 1}) + notification("whatever") + notification("textDocument/didSave", {}) + END)
check("unknown notifications", (len(m), status), (2, 0))
m, status, _ = run(initialize() + opened(URI, BAD) + notification("textDocument/didClose", {"textDocument": document}) + request(2, "textDocument/hover", at) + END)
check("closed", (published(m)[1]["diagnostics"], m[3]["result"]), ([], None))

# ---- invalid messages
for name, content in [("array", b"[]"), ("number", b"3"), ("no method", b"{}"), ("a method that is no string", b'{"method": 3, "id": 1}'),
                      ("an object as id", b'{"method": "shutdown", "id": {}}'), ("a fraction as id", b'{"method":"shutdown","id":1.5}')]:
    m, status, _ = run(initialize() + message(content) + END)
    check("invalid: " + name, (errors(m), status), ([(None, -32600)], 0))
for name, content in [("cut off", b'{"a"'), ("empty", b""), ("no UTF-8", b'{"method": "\xff\xfe"}'), ("overlong", b'"\xc0\xaf"'),
                      ("surrogate", b'"\xed\xa0\x80"'), ("NUL", b"\0"), ("two values", b"{} {}"), ("deep", b"[" * 100000),
                      ("escaped surrogate", b'"\\ud800"'), ("large exponent", b"1e99999")]:
    m, status, _ = run(initialize() + message(content) + END)
    check("not JSON: " + name, (errors(m), status), ([(None, -32700)], 0))
m, status, _ = run(initialize() + message(b'{"jsonrpc":"2.0","id":7,"result":null}') + END)
check("a response is ignored", (len(m), status), (2, 0))
bad_open = {"method": "textDocument/didOpen", "params": {"textDocument": {"uri": 3, "text": []}}}
bad_changes = [{"method": "textDocument/didChange", "params": {"textDocument": {"uri": URI, "version": 2}, "contentChanges": c}}
               for c in [3, [3], [{"range": {}, "text": "x"}], [{"range": span(0, 0, 0)}], [{"range": span(0, -1, 0), "text": "x"}]]]
m, status, _ = run(initialize() + opened(URI, GOOD) + message(bad_open) + b"".join(message(c) for c in bad_changes) + END)
check("invalid notifications are ignored", (len(m), status), (3, 0))
m, status, _ = run(initialize() + opened(URI, "\0\u0001\u2028") + opened("", "") + END)
check("odd texts", ([p["diagnostics"][0]["code"] for p in published(m)], status), (["X1", "N3"], 0))
check("empty text", published(m)[1]["diagnostics"][0]["range"], span(0, 0, 0))
m, status, _ = run(initialize() + opened(URI, "class Main { " + " " * 1048576 + "}") + END)
check("a long text", (published(m)[0]["diagnostics"][0]["code"], status), ("X5", 0))

# ---- input that is no message: the server ends with status 1 and a line on standard error, after it has handled all before it
for name, data in [
        ("no length", b"Content-Type: x\r\n\r\n{}"), ("no colon", b"Content-Length 2\r\n\r\n{}"), ("negative", b"Content-Length: -1\r\n\r\n{}"),
        ("letters", b"Content-Length: 2x\r\n\r\n{}"), ("empty length", b"Content-Length:\r\n\r\n{}"),
        ("huge", b"Content-Length: 99999999999999999999999999\r\n\r\n{}"), ("too long", b"Content-Length: 16777217\r\n\r\n{}"),
        ("two lengths", b"Content-Length: 2\r\nContent-Length: 2\r\n\r\n{}"), ("LF alone", b"Content-Length: 2\n\n{}"),
        ("endless line", b"A" * 5000000), ("endless header", b"A: b\r\n" * 5000), ("cut off in a content", b"Content-Length: 20\r\n\r\n{}"),
        ("cut off in a header", b"Content-Len"), ("empty header", b"\r\n{}"), ("NULs", b"\0" * 100), ("no ASCII", bytes(range(128, 256)) * 3)]:
    m, status, err = run(initialize() + data)
    check("no message: " + name, (len(m), status, err.startswith("titan_lsp: "), err.count("\n")), (1, 1, True, 1))
m, status, err = run(initialize())
check("end without exit", (len(m), status, err), (1, 1, ""))
m, status, err = run(initialize() + b"content-LENGTH:   2\r\nContent-Type: application/vscode-jsonrpc; charset=utf-8\r\n\r\n{}" + END)
check("other spellings of a header", (errors(m), status), ([(None, -32600)], 0))
LONG = b"X: " + b"a" * 997
m, status, err = run(initialize() + LONG + b"\r\nContent-Length: 2\r\n\r\n{}" + END)
check("the longest line", (errors(m), status), ([(None, -32600)], 0))
m, status, err = run(initialize() + LONG + b"a\r\nContent-Length: 2\r\n\r\n{}" + END)
check("a line that is too long", (len(m), status), (1, 1))
m, status, err = run(initialize() + b"A: b\r\n" * 30 + b"Content-Length: 2\r\n\r\n{}" + END)
check("the most fields", (errors(m), status), ([(None, -32600)], 0))
m, status, err = run(initialize() + message(b" " * 16777215 + b"3") + END)
check("the longest content", (errors(m), status), ([(None, -32600)], 0))

# ---- in small pieces
data = initialize() + opened(URI, BAD) + END
process = subprocess.Popen([PROGRAM], stdin=subprocess.PIPE, stdout=subprocess.PIPE)
for i in range(0, len(data), 7):
    process.stdin.write(data[i:i + 7])
    process.stdin.flush()
out, _ = process.communicate(timeout=20)
check("in small pieces", (out.count(b"Content-Length"), process.returncode), (3, 0))

# ---- times
start = time.time()
parts = [changed(URI, i + 2, BAD if i % 2 else GOOD) for i in range(2000)]
m, status, _ = run(initialize() + opened(URI, GOOD) + b"".join(parts) + END)
check("2,000 changes", (len(m), status, sum(bool(p["diagnostics"]) for p in published(m))), (2003, 0, 1000))
print("2,000 changes: %.2f s" % (time.time() - start))
BODY = "".join("    int v%d = %d + Ti.thisProc() * %d; println(v%d);\n" % (i, i, i, i) for i in range(150))
METHOD = "  static single void m%d() {\n" + BODY + "    Ti.barrier();\n  }\n"
LINES_300 = "class Main {\n" + "".join(METHOD % i for i in range(2)) + "  public static single void main(String[] args) { m0(); }\n}\n"
MEGABYTE = "class Main {\n" + "".join(METHOD % i for i in range(128)) + "  public static single void main(String[] args) { m0(); }\n}\n"
for name, text, times in [("a text of %d lines" % LINES_300.count("\n"), LINES_300, 20), ("a text of %d bytes" % len(MEGABYTE), MEGABYTE, 2)]:
    one = {"range": span(2, 4, 4), "text": " "}
    base = time.time()
    run(initialize() + opened(URI, text) + END)
    first = time.time() - base
    base = time.time()
    m, status, _ = run(initialize() + opened(URI, text) + b"".join(changed(URI, i + 2, one) for i in range(times)) + END)
    spent = (time.time() - base - first) / times
    check(name, (status, [p["diagnostics"] for p in published(m)][-1]), (0, []))
    print("%s: %.1f ms a change" % (name, 1000 * spent))
print(count - len(failed), "passed,", len(failed), "failed")
sys.exit(bool(failed))
