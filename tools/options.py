#!/usr/bin/env python3
"""Turns proof files that speak of this repository's older answers to the library's Option and Result and to the enum of refusals.

usage: tools/options.py [FOLDER]     (once, on a checkout from before docs/DESIGN-PASS.md; FOLDER is this one by default)

It goes by text over each crate's specs/ and proofs/, a file at a time, by what the file imports: docs/DESIGN-PASS.md, "Words", has the
table. What it leaves is said by `rt check`: imports that it can't know, a name that falls together with another, and a proof that took a
pair, a number or a record apart by its constructor.
"""

import os
import re
import sys

ROOT = sys.argv[1] if len(sys.argv) > 1 else os.path.dirname(os.path.dirname(os.path.abspath(__file__)))

# crate and enum: the type in its place, what that names, and for each variant its new constructor, how many values it carries, and what
# stands within it
ENUMS = {
    ("stats", "Rtt"): ("Option ℕ", None, {"Absent": ("None", 0, None), "Nanos": ("Some", 1, None)}),
    ("stats", "Outstanding"): ("Option ℕ", None, {"BelowZero": ("None", 0, None), "Count": ("Some", 1, None)}),
    ("message", "Head"): ("Option MessageHeader", "message.MessageHeader", {"Bad": ("None", 0, None), "Good": ("Some", 1, None)}),
    ("message", "Parsed"): ("Option Message", "message.Message", {"Bad": ("None", 0, None), "Good": ("Some", 1, None)}),
    ("message", "Integrity"): (
        "Option IntegrityAlgorithm",
        "message.IntegrityAlgorithm",
        {"None": ("None", 0, None), "Sha1": ("Some", 0, "Sha1"), "Sha256": ("Some", 0, "Sha256")},
    ),
    ("message", "Walk"): ("Option (Option IntegrityAlgorithm)", "message.IntegrityAlgorithm", {"Cut": ("None", 0, None), "Whole": ("Some", 1, None)}),
    ("request", "SendTimes"): ("Option SendTimes", "request.SendTimes", {}),
    ("request", "NextSend"): ("Option ℕ", None, {"Ended": ("None", 0, None), "At": ("Some", 1, None)}),
    ("requests", "Found"): ("Option (ℕ × StunRequestState)", "request.StunRequestState", {"Nothing": ("None", 0, None), "At": ("Some", 2, None)}),
    ("requests", "FreeRow"): ("Option ℕ", None, {"Full": ("None", 0, None), "Row": ("Some", 1, None)}),
    ("requests", "Transmitted"): ("Option StunRequestState", "request.StunRequestState", {"Quiet": ("None", 0, None), "Sends": ("Some", 1, None)}),
    ("formed", "Next"): ("Option TransactionId", "message.TransactionId", {"End": ("None", 0, None), "Id": ("Some", 1, None)}),
    ("model", "Built"): ("Result (StunAgent × Event) Refusal", "model.Refusal", {"Refused": ("Err", 1, None), "Fresh": ("Ok", 2, None)}),
    ("agent", "Place"): ("Option ℕ", None, {"Nowhere": ("None", 0, None), "At": ("Some", 1, None)}),
    ("agent", "Clock"): ("Option ℕ", None, {"Absent": ("None", 0, None), "At": ("Some", 1, None)}),
    ("record", "Found"): ("Option Address", "address.Address", {"Bad": ("None", 0, None), "Good": ("Some", 1, None)}),
    ("record", "Body"): ("Option Body", "record.Body", {"Bad": ("None", 0, None), "Settings": ("Some", 1, "Settings"), "Good": ("Some", 2, "Asks")}),
    ("record", "Record"): ("Option Record", "record.Record", {"Bad": ("None", 0, None), "Settings": ("Some", 2, "Settings"), "Whole": ("Some", 3, "Whole")}),
    ("line", "Reply"): ("Option Answer", "model.Answer", {"Bad": ("None", 0, None), "Told": ("Some", 1, None)}),
}
REFUSALS = ["State", "Settings", "Clock", "TooLong", "BadMessage", "WrongClass", "InProgress", "TableFull", "NoRequest", "PeersFull", "NoStats", "Counts"]
CAPITALS = {re.sub(r"(?<!^)(?=[A-Z])", "_", r).upper(): r for r in REFUSALS}
# definitions of `model` that another one already is, or that got another name
RENAMED = {"number_in": "refused_by", "on_row": "on_some", "on_message": "on_some", "is_found": "is_some"}
# what answers a refusal, and so a number before
REFUSING = r"(?:refusals\.)?(?:refusal_of|refusal_past|refusal_in|refused_by)"
# a goal's arm by its variant
ARMS = {"Absent": "None", "Nanos": "Some", "BelowZero": "None", "Count": "Some", "Sends": "Some", "Quiet": "None", "Row": "Some", "Full": "None"}
ARMS |= {"Id": "Some", "End": "None", "Nowhere": "None", "At": "Some", "Told": "Some", "Cut": "None", "Never": "None", "Sent": "Some"}
ARMS |= {"Sha1": "Some-Sha1", "Sha256": "Some-Sha256", "Fresh": "Ok", "Refused": "Err"}
WORD = re.compile(r"(?<![\w.'-])((?:(\w+)\.)?([A-Za-z][\w-]*'*))(?![\w'-])")
USE = re.compile(r"^use (?:Rattle\.(\w+)\.specs\.declared\.(\w+)(\.TheVariants)?|(Rattle\.std\.proofs\.Math\.Option|mathlib\.Core\.Option))(?:\.\{([^}]*)\}| as (\w+))[ \t]*$\n?", re.M)


def atom(s, i):
    """Where the next argument begins and ends."""
    while i < len(s) and s[i] in " \n":
        i += 1
    if i >= len(s):
        return None
    if s[i] == "(":
        depth, j = 0, i
        while j < len(s):
            depth += {"(": 1, ")": -1}.get(s[j], 0)
            j += 1
            if depth == 0:
                break
    else:
        m = re.compile(r"[^\s(){};,]+").match(s, i)
        if not m:
            return None
        j = m.end()
    m = re.compile(r"(?:\.[\w'-]+)+").match(s, j)
    return i, m.end() if m else j


def outside(t, turn):
    """The text with `turn` done to what is neither a comment nor an import."""
    parts = re.split(r"(--[^\n]*|^(?:pub )?use [^\n]*$)", t, flags=re.M)
    return "".join(p if p.startswith("--") or re.match(r"(?:pub )?use ", p) else turn(p) for p in parts)


class File:
    def __init__(self, path, text):
        self.path, self.text = path, text
        self.crate = path.split("/crates/")[1].split("/")[0]
        self.names, self.groups, self.types, self.wanted = {}, {}, {}, set()

    def imports(self):
        def on(m):
            crate, enum, variants, option, items, group = m.groups()
            if option:
                for item in filter(None, (x.strip() for x in items.split(","))):
                    if item != "Option":
                        self.names[item] = (item.capitalize(), 0, None)
                return ""
            if (crate, enum) not in ENUMS:
                return m[0]
            type_, named, cases = ENUMS[crate, enum]
            if not variants:
                self.types[enum] = type_
                if named:
                    self.wanted.add(named)
                return m[0] if type_.endswith(" " + enum) else ""
            if group:
                self.groups[group] = cases
                return ""
            keep = []
            for item in filter(None, (x.strip() for x in items.split(","))):
                old, new = re.match(r"(\w+)(?: as (\w+))?$", item).groups()
                if old not in cases:
                    continue
                ctor, values, inner = cases[old]
                if inner and values:
                    inner = new or inner
                    keep.append(cases[old][2] + (f" as {inner}" if inner != cases[old][2] else ""))
                self.names[new or old] = (ctor, values, inner)
            return f"use Rattle.{crate}.specs.declared.{enum}.TheVariants.{{{', '.join(keep)}}}\n" if keep else ""

        joined = re.sub(r"(?m)^(use [^\n;{]*\.\{)\n((?:  [^\n]*\n)+?)\}$", lambda m: m[1] + " ".join(x.strip() for x in m[2].split("\n")).strip().rstrip(",") + "}" if "declared" in m[1] and any(f".{c}.specs.declared.{e}." in m[1] for c, e in ENUMS) else m[0], self.text)
        self.text = USE.sub(on, joined)

    def words(self, s):
        out, i = "", 0
        while m := WORD.search(s, i):
            group, word = m[2], m[3]
            case = self.groups[group].get(word) if group in self.groups else self.names.get(word) if group is None else None
            if group is None and case is None and word in self.types:
                within = re.search(r"(List|Option|Bor|MutBor)\s$", s[max(0, m.start() - 40) : m.start()])
                out += s[i : m.start()] + (f"({self.types[word]})" if within else self.types[word])
                i = m.end()
                continue
            if case is None:
                out, i = out + s[i : m.end()], m.end()
                continue
            ctor, values, inner = case
            out += s[i : m.start()]
            i = m.end()
            if inner and not values:
                before, after = s[: m.start()].rstrip(), s[m.end() :].lstrip()
                alone = before.endswith("(") and after.startswith(")")
                out += f"Some {inner}" if alone else f"(Some {inner})"
                continue
            if inner or values == 2:
                arguments = []
                for _ in range(values):
                    a = atom(s, i)
                    if not a:
                        break
                    arguments.append(self.words(s[a[0] : a[1]]))
                    i = a[1]
                if len(arguments) < values:
                    print(f"{self.path}: {word} without its {values} values: by hand")
                    out += s[m.start() : i]
                else:
                    out += f"Some ({inner} {' '.join(arguments)})" if inner else f"{ctor} ({', '.join(arguments)})"
                continue
            out += ctor
        return out + s[i:]

    def send_times(self):
        """`Never` and `Sent first last`, of which a clause takes the record and its fields."""
        lines, clause = [], None

        def fields(x):
            x = re.sub(rf"\bSent {clause[1]} {clause[2]}\b", "Some s", x)
            for name, field in zip(clause[1:], ("first", "last")):
                x = re.sub(rf"(?<![\w.'-]){name}(?![\w'-])(?! =)", f"s.{field}", x)
            return x

        for line in self.text.split("\n"):
            if line.startswith("use ") or line.lstrip().startswith("--"):
                lines.append(line)
                continue
            m = re.match(r"^(\s*)(\w+)( .*)?\(Sent (\w+) (\w+)\)(.*?) =( .*|$)", line)
            if m and " : " not in line.split(" =")[0]:
                clause = (len(m[1]), m[4], m[5])
                lines.append(f"{m[1]}{m[2]}{m[3] or ' '}(Some s){m[6]} ={fields(m[7])}")
            elif clause and line.strip() and len(line) - len(line.lstrip()) > clause[0]:
                lines.append(fields(line))
            else:
                clause = None
                lines.append(line)
        t = re.sub(r"(?<![\w.-])Sent\b", "sent_times", re.sub(r"(?<![\w.])Never\b", "None", "\n".join(lines)))
        self.text = re.sub(r"in-sent_times", "in-Some", t)

    def refusals(self):
        t = re.sub(r"(?m)^use Rattle\.model\.specs\.Refusals\.\{([^}]*)\}", lambda m: "use Rattle.model.specs.Refusals.{" + ", ".join(x for x in (y.strip() for y in m[1].split(",")) if x and x not in CAPITALS and x != "Refusal") + "}", self.text)
        t = t.replace("use Rattle.model.specs.Refusals.{}\n", "")
        lines, way = [], None
        for line in t.split("\n"):
            if line.startswith("use ") or line.lstrip().startswith("--"):
                lines.append(line)
                continue
            for old, new in CAPITALS.items():
                line = re.sub(rf"(?<![\w.]){old}(?![\w])", new, line)
            for old, new in RENAMED.items():
                line = re.sub(rf"(?<![\w.]){old}(?!\w)", new, line)
            line = re.sub(rf"((?<![\w.]){REFUSING}(?: (?:\((?:[^()]|\((?:[^()]|\([^()]*\))*\))*\)|[\w.'\[\]-]+))* ≡ )(?:0\b|number_of (\w+))", lambda m: m[1] + (f"Some {m[2]}" if m[2] else "None"), line)
            line = re.sub(r"eqb \((refused_by \w+|refusal_of (?:[\w.]+|\((?:[^()]|\([^()]*\))*\))(?: (?:[\w.\[\]]+|\((?:[^()]|\([^()]*\))*\)))*)\) 0", r"is_none (\1)", line)
            if re.search(rf"{REFUSING}.* ≡ suc n\b|answer\.Refused (?:\(suc n\)|n\b)", line):
                for old, new in (("(n : ℕ)", "(q : Refusal)"), ("≡ suc n", "≡ Some q"), ("(suc n)", "q"), ("answer.Refused n", "answer.Refused q")):
                    line = line.replace(old, new)
            line = re.sub(r"((?:answer\.)?Refused|refused_with [\w.]+) (\d+)\b", lambda m: f"{m[1]} {REFUSALS[int(m[2]) - 1]}", line)
            m = re.match(rf"^(\s*)(\w+) : \((n|r) : ℕ\) → .*{REFUSING}.* ≡ \3(?: →|$)", line)
            if m:
                line = line.replace(f"({m[3]} : ℕ) →", "(o : Option Refusal) →", 1)
                line = re.sub(rf"≡ {m[3]}( →|$)", r"≡ o\1", line, count=1)
                way = m[2]
            elif way:
                m = re.match(rf"^(\s*){way} (zero|\(suc (\w+)\))(.*)$", line)
                if m and m[2] == "zero":
                    line = f"{m[1]}{way} None{m[4]}"
                elif m:
                    line = f"{m[1]}{way} (Some q)" + re.sub(rf"(?<![\w.]){m[3]}(?![\w])", "q", m[4].replace(f"(suc {m[3]})", "q"))
                elif not line.strip():
                    way = None
            lines.append(line)
        self.text = "\n".join(lines)

    def arms(self):
        arms = dict(ARMS)
        if self.crate != "stats":
            arms["Nothing"] = "None"
        if self.crate == "message":
            arms["Whole"] = "Some"
        if "/record_of/" not in self.path:
            arms |= {"Good": "Some", "Bad": "None"}
        self.text = re.sub(r"((?:in|not)-)([A-Z]\w*)(?![\w])", lambda m: m[1] + arms.get(m[2], m[2]), self.text)

    def import_new(self):
        plain = re.sub(r"(?m)^(?:pub )?use .*$", "", re.sub(r"--[^\n]*", "", self.text))
        have = {x.strip().split(" as ")[-1] for group in re.findall(r"(?m)^(?:pub )?use [^{\n]*\{([^}]*)\}", self.text) for x in group.split(",")}

        def missing(words):
            return [w for w in words if w not in have and re.search(rf"(?<![\w.'-]){w}(?![\w'-])", plain)]

        new = []
        words = missing(["Option", "None", "Some", "Result", "Ok", "Err", "is_none", "slice_get"])
        prelude = re.search(r"(?m)^use Rattle\.std\.specs\.Prelude\.\{([^}\n]*)\}$", self.text)
        if words and prelude:
            self.text = self.text[: prelude.start(1)] + prelude[1] + ", " + ", ".join(words) + self.text[prelude.end(1) :]
        elif words:
            new.append("use Rattle.std.specs.Prelude.{" + ", ".join(words) + "}")
        for named in sorted(self.wanted | {"model.Refusal", "model.StunAgent", "stats.Event"}):
            crate, type_ = named.split(".")
            if missing([type_]):
                new.append(f"use Rattle.{crate}.specs.declared.{type_}.{{{type_}}}")
        for type_, cases in (("message.IntegrityAlgorithm", ["Sha1", "Sha256"]), ("model.Refusal", REFUSALS)):
            if cases := missing(cases):
                crate, name = type_.split(".")
                new.append(f"use Rattle.{crate}.specs.declared.{name}.TheVariants.{{{', '.join(cases)}}}")
        if missing(["sent_times"]) and not self.path.endswith("request/specs/Times.antt"):
            new.append("use Rattle.request.specs.Times.{sent_times}")
        m = re.search(r"(?m)^use ", self.text)
        if new and m:
            self.text = self.text[: m.start()] + "\n".join(new) + "\n" + self.text[m.start() :]

    def turned(self):
        before = self.text
        times = "SendTimes.TheVariants" in self.text
        self.text = re.sub(r"(?m)^(use lib\.ListN\.\{[^}]*?)(?:, get_elem\?|get_elem\?(?:, )?)", r"\1", self.text).replace("use lib.ListN.{}\n", "").replace("get_elem?", "slice_get")
        self.imports()
        if times or "Sent" in self.text:
            self.send_times()
        self.text = outside(self.text, self.words)
        if self.crate in ("model", "specimens", "agent", "entry", "record", "line", "replay", "runs", "hosted"):
            self.refusals()
        if re.search(r"/proofs/.+/(Answers|Invariants)\.antt$", self.path):
            self.arms()
        if self.text != before:
            self.import_new()
        return self.text


for folder, folders, files in os.walk(os.path.join(ROOT, "crates")):
    if "out" in folders:
        folders.remove("out")
    for name in files:
        if name.endswith(".antt"):
            path = os.path.join(folder, name)
            with open(path) as f:
                old = f.read()
            new = File(path, old).turned()
            if new != old:
                with open(path, "w") as f:
                    f.write(new)
