"""What the page of a dossier shows, next to what its JSON has: each wrong body with what a case and the prover made of it, the parts of the
software, and how the template shows a value."""
import functools
import json
import re

from gate_record import MISSING
from harness import TOP
from hypertext import a_link, anchor, call_anchor, comment, inline, markdown, text
from sources import CUSTOMER, INTERFACE, LEGAL, MODEL, PATH, contract_of, in_ticks, try_edits

TEXTS = json.loads((TOP / "tools" / "dossier_texts.json").read_text(encoding="utf-8"))
NOTATION = [{"written": sign, "read": said} for sign, said in TEXTS["notation"]]
KINDS = ("an open goal", "no proof", "a proof no longer fits")
KEYS = {"legal": LEGAL, "path": PATH, "customer": CUSTOMER}


def bodies_in(cells):
    """The wrong bodies that a row of the index of clauses names."""
    return [it for it in in_ticks(cells[-1]) if re.match(r"tools/edits/|\w+/must-fail/", it)]


def own_in(cells):
    """Those that break a rule of the profile's own and not the clause."""
    return [it for it in bodies_in(cells) if f"`{it}` (own)" in cells[-1]]


def is_own(cells):
    """Whether a row's bodies all break a rule of the profile's own: no body can break its clause."""
    return set(bodies_in(cells)) == set(own_in(cells))


def rows_of_the_legal_part(clauses):
    """The rows on clauses of R 76-1 that have a definition."""
    return [cells for part in clauses if part["part"] == LEGAL and len(part["head"]) > 3 for cells in part["rows"]]


def clauses_unseen(found):
    """The clauses of R 76-1 with a definition in whose rows no wrong body has a case with two answers: one that breaks the clause, if a row
    names such a body."""
    bodies = {it["body"] for it in found["evidence"]["seen by a test"]}
    rows = rows_of_the_legal_part(found["traceability"])
    return [cells[0] for cells in rows if not bodies & (set(bodies_in(cells)) - (set() if is_own(cells) else set(own_in(cells))))]


def digests_in(lines):
    """The digests that `tools/legal_digest --files` prints: part, sum, and the files with their sums."""
    found = []
    for line in lines:
        part, _, total = line.partition(" sha256 ")
        if line.startswith("  "):
            found[-1]["files"].append(dict(zip(("sum", "path"), line.split())))
        elif total:
            found.append({"part": part, "sum": total, "files": []})
    return found


@functools.cache
def edit_of(body):
    """The edit of a wrong body, by the name that the index of clauses has."""
    return try_edits.Edit(TOP / (f"{body}.edit" if body.startswith("tools/") else f"crates/{body}.edit"))


def changes_of(body):
    """The lines of the sources that a wrong body changes, each with the one in its place."""
    return [{"file": file, "old": old.strip(), "new": new.strip() or "nothing"} for file, old, new in edit_of(body).changes]


def body_anchor(body):
    """Where it is said what a wrong body changes."""
    return anchor("body", re.sub(r"\W+", "_", body))


def contract_anchor(crate, function):
    """Where the contract of a function that a wrong body changes is."""
    return anchor("contract", crate, re.sub(r"\W+", "_", function))


def functions_of(body):
    """The functions that a wrong body changes, each with the place of its contract."""
    edit = edit_of(body)
    return [{"name": it, "anchor": contract_anchor(edit.crate, it) if contract_of(edit.crate, it) else ""} for it in sorted(edit.functions)]


def contracts_changed(bodies):
    """The contracts of the functions that these wrong bodies change, each once."""
    named = sorted({(edit_of(body).crate, function) for body in bodies for function in edit_of(body).functions})
    return [{**it, "anchor": contract_anchor(*name)} for name in named if (it := contract_of(*name))]


def case_anchor(it):
    """Where the inputs of a row's case are."""
    return anchor("case", re.sub(r"\W+", "_", it["case"]))


def at_a_word(line):
    """A line of the record that rt ci has cut within a word: up to the last whole word, and an ellipsis."""
    is_whole = len(line) < 200 or line.endswith((")", ".", "`"))
    return line if is_whole else line.rpartition(" ")[0] + " \u2026"


def shown_code(it, links, path=None):
    """A definition, law, call or type with its code as HTML, and the class of a block that the end of a page does not cut."""
    return {**it, "shown": links.code(it["code"], links.names_of(it.get("uses", {}), path)), "size": "short" if it["code"].count("\n") < 14 else ""}


def shown_module(it, links):
    blocks = [{**shown_code({**block, "uses": it["uses"]}, links, it["path"]), "anchor": block["names"] and anchor(it["path"], block["names"][0])} for block in it["blocks"]]
    return {**it, "anchor": anchor(it["path"], "module"), "blocks": blocks}


def shown_verdict(it):
    """A verdict of a further edit, with the kind of its refusal: by what the check named."""
    goals = it.get("goals", [])
    kind = KINDS[2 if KINDS[2] in goals else 1 if any(" " in goal for goal in goals) else 0]
    named = [re.sub(r"^expected answers in \S+; `search` did not prove `(\S+)`$", r"\1", goal) for goal in goals if goal != kind]
    said = {"name": it["edit"].partition("/")[2], "passed": it["refused"] is False, "untried": it["refused"] is None, "others": (it.get("checked with") or 1) - 1 or ""}
    return {**dict.fromkeys(("at", "functions"), ""), **it, "kind": kind, "goals": named, "listed": it.get("by the gate's command"), **said}


def sums_of(further):
    """How many of the verdicts are refusals of each kind, and how many edits of each part have none."""
    refused, untried = ([it for it in further if bool(it["refused"]) is said and it["refused"] is not False] for said in (True, False))
    kinds = [shown_verdict(it)["kind"] for it in refused]
    return [{"kind": kind, "count": kinds.count(kind)} for kind in KINDS], [{"part": part, "count": [it["part"] for it in untried].count(part)} for part in KEYS.values()]


def prover_said(body, evidence):
    """What the record has of a wrong body that the prover was given: one of the names of the page's element `clauses`."""
    crate, _, name = body.removeprefix("tools/edits/").replace("/must-fail/", "/").partition("/")
    kept = next((it for it in evidence["edits"] if it["edit"] == f"{crate}/{name}.edit" and "/must-fail/" in body), None)
    further = next((it for it in evidence["further verdicts"] if it["edit"] == f"{crate}/{name}"), None)
    if kept:
        which = "why" if kept["why"] else "before" if "tried by an earlier run" in kept["verdict"] else "missing"
    else:
        which = "verdict" if further else "listed" if f"{crate}/{name}" in try_edits.listed() and evidence["further edits"] else "not given"
    said = {"why": kept and kept["why"] + (", by an earlier run over the same files" if kept["earlier"] else ""), "verdict": further and shown_verdict(further)}
    return {**dict.fromkeys(("why", "before", "missing", "verdict", "listed", "not given"), ""), which: said.get(which, True)}


def shown_clauses(it, evidence):
    """A part of the index of clauses; a row that has a definition with its references, and of each wrong body what a case shows of it, and what the prover made of it."""
    if len(it["head"]) < 4:
        return {**it, "rows": [{"plain": cells, "shown": []} for cells in it["rows"]]}
    rows = []
    for cells in it["rows"]:
        references = [{"kind": kind.lower(), "cell": cell} for kind, cell in zip(it["head"][2:], cells[2:]) if in_ticks(cell)]
        seen = {body: [{**one, "anchor": case_anchor(one)} for one in evidence["seen by a test"] if one["body"] == body][-1:] for body in bodies_in(cells)}
        own = own_in(cells)
        bodies = [{"name": body.rpartition("/")[2], "own": body in own, "seen": seen[body], **prover_said(body, evidence)} for body in bodies_in(cells)]
        rows.append({"plain": [], "shown": {"clause": cells[0], "subject": cells[1], "references": references, "bodies": bodies}})
    return {**it, "head": [*it["head"][:2], "References"], "rows": rows}


def part_view(found, part, links):
    """What the page shows of a part of the software."""
    of_part = lambda items: [it for it in items if it["part"] == part]
    within = lambda path: path.startswith(f"{MODEL}/Instrument/")
    modules, calls, edits = (of_part(it) for it in (found["definitions"], found["calls"], found["evidence"]["edits"]))
    # the instrument before the rows and devices, which no definition of it uses
    first = [it for it in modules if within(it["path"]) and all(within(other) for other in it["uses"] if other in links.paths)]
    types = {links.types[path]: it for path, it in found["types"].items() if it["part"] == part}
    named = [{**it, "name": it["edit"].removesuffix(".edit"), "said": at_a_word(it["verdict"])} for it in edits]
    further = of_part(found["evidence"]["further verdicts"])
    crate_of = lambda it: it["edit"].partition("/")[0]
    return {
        "instrument": [shown_module(it, links) for it in first], "others": [shown_module(it, links) for it in modules if it not in first],
        "crates": [{
            "crate": crate, "anchor": anchor("calls", crate),
            "calls": [{**shown_code(it, links), "anchor": call_anchor(it), "title": it["path"].removeprefix("::")} for it in calls if it["crate"] == crate],
        } for crate in dict.fromkeys(it["crate"] for it in calls)],
        "types": [{**shown_code(it, links), "anchor": place} for place, it in sorted(types.items())],
        "groups": [{
            **group, "headline law": group["crate"] == "wc_controller", "instrument laws": group["crate"] == "wc_laws_instrument",
            "other laws": group["crate"] not in ("wc_controller", "wc_laws_instrument"),
            "laws": [{**shown_code(law, links), "anchor": links.laws[law["name"]]} for law in group["laws"]],
            "modules": [shown_module(it, links) for it in group["modules"]],
        } for group in of_part(found["laws"])],
        "clauses": [shown_clauses(it, found["evidence"]) for it in of_part(found["traceability"])],
        "edits": named, "other refusals": [it["name"] for it in named if it["why"] in ("", "otherwise")],
        "refusals": [{"word": word, "says": says, "names": [it["name"] for it in named if it["why"] == word]} for _, word, says in TEXTS["refusals"]],
        "further": [{"crate": crate, "verdicts": [shown_verdict(it) for it in further if crate_of(it) == crate]} for crate in dict.fromkeys(map(crate_of, further))],
    }


def view_of(found, links):
    """What the page shows, next to what the JSON has as it is shown."""
    it, rests, further = found["evidence"], found["rests"], found["evidence"]["further verdicts"]
    scripts = [one for one in it["commands"] if re.match(r"(env \S+ )?(\.ci|tools)/", one["command"] or "")]
    rows, unseen = rows_of_the_legal_part(found["traceability"]), clauses_unseen(found)
    times, untimed = sorted(one["at"] for one in further if one.get("at")), [one for one in further if one["refused"] is not None and not one.get("at")]
    run = re.findall(r"\d{4}-\d\d-\d\dT\d\d:\d\d", found["identification"]["run"])
    by_this_run = [one for one in further if one["by the gate's command"] and run and run[0] <= (one.get("at") or "")[:16] <= run[-1]]
    cases = {one["case"]: one for one in it["seen by a test"]}
    parts = {key: part_view(found, part, links) for key, part in KEYS.items()}
    lines = sorted({re.sub(r"\bfunctions=\d+ ", "", one["line"]) for one in rests if one["line"]})
    return {
        **parts, "no line": MISSING, "interface": list(INTERFACE), "digests": digests_in(found["identification"]["digests"]),
        "last verdict": it["verdict"][-1], "scripts": len(scripts), "scripts ended well": sum(one["status"] == "0" for one in scripts),
        "all laws": [law for group in found["laws"] for law in group["laws"]], "rows on R 76-1": len(rows), "rows seen": len(rows) - len(unseen), "unseen": unseen,
        "own rows": [cells[0] for cells in rows if is_own(cells)],
        "shown of itself": [line for line in found["identification"]["digests"] if not line.startswith("  ")],
        "edits here": [one for one in it["edits"] if one["why"] and not one["earlier"]], "edits before": [one for one in it["edits"] if one["earlier"]],
        "done here": [found[0] for line in it["verdict"] for found in [re.search("done in this run: [^;]*", line)] if found],
        "further tried": [one for one in further if one["refused"] is not None], "further untried": [one for one in further if one["refused"] is None],
        "public calls": len(try_edits.counts()["all"]), "proved here": [one for one in rests if re.match(r"\w+ proved", one["verdict"])],
        "all further": bool(further), "listed further": not further and bool(try_edits.listed()), "no further": not further and not try_edits.listed(),
        "further refused": [one for one in further if one["refused"]], "by this run": by_this_run, "recorded": [{"first": times[0], "last": times[-1], "untimed": untimed}] if times else [],
        "kinds of refusals": sums_of(further)[0], "parts untried": sums_of(further)[1],
        "by the gate": [one for one in further if one["by the gate's command"]],
        "seen": [{
            **one, "anchor": case_anchor(one), "place": body_anchor(one["body"]), "changes": changes_of(one["body"]), "functions": functions_of(one["body"]),
        } for one in it["seen by a test"]],
        "contracts changed": contracts_changed(one["body"] for one in it["seen by a test"]),
        "cases": [{
            "case": name, "anchor": case_anchor(one), "files": [{"part": part, "content": content.rstrip()} for part, content in one["inputs"].items()],
        } for name, one in sorted(cases.items())],
        "notation": NOTATION, "verdict words": [{"word": word, "says": says} for word, says in TEXTS["verdict words"]], "verdict lines": lines or [MISSING],
        "kept": [one["crate"] for one in rests if " is kept" in one["verdict"]], "unnamed": [one["crate"] for one in rests if one["verdict"] == MISSING],
        "earlier": sorted({one["line of"] for one in rests} - {None, "this gate"}),
        # after the parts, whose names it lists
        "elsewhere": [{"anchor": anchor("elsewhere", path), "path": path, "names": sorted(names)} for path, names in sorted(links.elsewhere.items())],
        "index": [{"name": name, "places": [{"place": place, "where": where} for place, where in places]} for name, places in links.index().items()],
    }


def filters_of(links):
    """How the template shows a value."""
    joined = lambda between: lambda items: between.join(map(text, items))
    return {
        "mono": lambda it: f'<span class="sum">{text("-" if it is None else it)}</span>', "time": lambda it: it if it == MISSING else f'<span class="time">{text(it)}</span>',
        "dash": lambda it: text(it or "-"), "last": lambda it: text(it.rpartition("/")[2]), "count": lambda items: str(len(items)),
        "lines": joined("\n"), "breaks": joined("<br>"), "commas": joined(", "), "semicolons": joined("; "),
        "inline": inline, "markdown": markdown, "comment": comment,
        "linked": lambda it: links.words(markdown(it)), "questions": lambda it: links.words(markdown(it, "questions")),
        "points": lambda it: links.words(markdown(it, "points")), "said": lambda it: links.words(comment(it)),
        "references": lambda cell: ", ".join(a_link(links.reference(it), text(it)) + " (own)" * (f"`{it}` (own)" in cell) for it in in_ticks(cell)),
    }
