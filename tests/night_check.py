#!/usr/bin/env python3
"""Holds the JSON, CSV and HTML reports of a night to its text report.

    night_check.py TEXT JSON CSV HTML [MAPS]

MAPS, if given, has the maps that must be in the JSON report, as night_oracle.py makes them.
"""
import csv
import json
import re
import sys
import xml.etree.ElementTree as ElementTree

SIGNS = {"agrees": "\u2713", "differs": "\u2717", "missing": "\u2013", "refused": "R", "unreadable": "?"}


def check(condition, what):
    if not condition:
        sys.exit(f"night_check.py: {what}")


def read_text(path):
    """The night's line, those of the pairs as (sheet, card, verdict, what follows), those of the causes, and the
    totals'."""
    with open(path, encoding="utf-8") as file:
        night, pairs, *causes, totals = file.read().split("\n\n")
    name = r'("(?:[^"\\]|\\.)*"|[^ ]*)'
    parsed = [re.fullmatch(name + " " + name + r" (\w+)(?:: (.*))?", line).groups("") for line in pairs.split("\n")]
    return night, parsed, "".join(causes).split("\n") if causes else [], totals.strip().split("\n")


def readable(name):
    """A name as the text has it, from a JSON string."""
    raw = name.encode("utf-8", "surrogateescape")
    if re.fullmatch(rb'[!#-\[\]-~]+', raw):
        return name
    escapes = {'"': '\\"', "\\": "\\\\", "\n": "\\n", "\t": "\\t"}

    def shown(character):
        is_seen = character.isprintable() and not "\udc80" <= character <= "\udcff"
        hexes = "".join(f"\\x{b:02X}" for b in character.encode("utf-8", "surrogateescape"))
        return escapes.get(character) or (character if is_seen or character == " " else hexes)

    shown_name = "".join(shown(c) for c in name)
    return shown_name if shown_name == name and " " not in name else f'"{shown_name}"'


def check_json(path, pairs, totals, maps):
    with open(path, encoding="utf-8") as file:
        report = json.load(file)
    found = [(readable(sheet["sheet"]), readable(f["card"]), f["verdict"]) for sheet in report["sheets"]
             for f in sheet["findings"]]
    check(found == [pair[:3] for pair in pairs], f"{path}: its pairs are not the text's")
    found_maps = {f"{sheet['sheet']} {f['card']}": f["map"] for sheet in report["sheets"] for f in sheet["findings"]
                  if "map" in f}
    check(maps is None or found_maps == maps, f"{path}: its maps are not those expected")
    for (_, _, verdict, words), finding in zip(pairs, (f for s in report["sheets"] for f in s["findings"])):
        check_finding(path, verdict, words, finding)
    names = {"agrees": "agree", "differs": "differ"}
    lines = [readable(t["card"]) + ": " + ", ".join(f"{t[v]} {names.get(v, v)}" for v in SIGNS)
             for t in report["totals"]]
    check(lines == totals[:-1], f"{path}: its totals are not the text's")
    night = report["night"]
    check(totals[-1].startswith(f"night: {night['sheets']} sheet"), f"{path}: the night's total")
    return report


def check_causes(path, report, pairs, lines):
    """The headlines of the text are the report's, and each difference is among the sheets of its causes."""
    found = []
    for entry in report["causes"]:
        card = readable(entry["card"])
        for number, cause in enumerate(entry["causes"]):
            words = next(w for s, c, _, w in pairs if (s, c) == (readable(cause["example"]), card))
            found += [f"{card}: {cause['headline']}", f"  for instance {readable(cause['example'])} differs: {words}",
                      "  sheets: " + ", ".join(map(readable, cause["sheets"]))]
            sheets = [s["sheet"] for s in report["sheets"] for f in s["findings"]
                      if f["card"] == entry["card"] and number in f.get("causes", [])]
            check(sheets == cause["sheets"] and cause["differ"] <= cause["of"], f"{path}: {cause['headline']}")
    check(found == lines, f"{path}: its causes are not the text's: {found[:3]} {lines[:3]}")
    for sheet in report["sheets"]:
        for finding in sheet["findings"]:
            check((finding["verdict"] == "differs") == bool(finding.get("causes")), f"{path}: {finding}")


def check_identity(path, report, line):
    identity = report["identity"]
    words = (f"night {readable(identity['name'])}, {identity['date']}, moonbleat {identity['version']}, editions 1 to "
             f"{identity['edition']}, {identity['files']} file{'s'[:identity['files'] != 1]}, digest {identity['digest']}")
    check(line == words, f"{path}: {line}")


def check_finding(path, verdict, words, finding):
    """The numbers of a finding stand in its sentence too."""
    memory, registers = finding.get("memory"), finding.get("registers")
    if verdict == "differs":
        check(memory or registers or "trace" in finding or "refusal" in finding, f"{path}: nothing differs")
    if memory:
        start = f"byte {memory['byte']} wants {memory['wants']:02X}, has {memory['has']:02X}; "
        origin = "no step writes there"
        if memory["stored"]:
            origin = ("step {step} store r{register}, element {element} ({row}, {column}), byte {element_byte} of "
                      "{element_size}").format(**memory)
        check(start + origin in words, f"{path}: {words}")
    if "lead" in finding:
        lead = finding["lead"]
        place = f"r{lead['register']}, element {lead['element']} ({lead['row']}, {lead['column']})"
        check(words.startswith(f"step {lead['step']} ") and place in words, f"{path}: {words}")
    if registers:
        check(f"register {registers['register']}" in words, f"{path}: {words}")
    if verdict == "refused":
        check(words.startswith(f"refusal {finding['number']}"), f"{path}: {words}")
    if verdict in ("missing", "unreadable"):
        check(f".{finding['file']}" in words and finding.get("reason", "") in words, f"{path}: {words}")


def check_csv(path, report, pairs):
    with open(path, encoding="utf-8", errors="surrogateescape", newline="") as file:
        rows = list(csv.DictReader(file))
    check(len(rows) == len(pairs), f"{path}: {len(rows)} rows")
    findings = [(sheet["sheet"], f) for sheet in report["sheets"] for f in sheet["findings"]]
    for row, (_, _, verdict, words), (sheet, finding) in zip(rows, pairs, findings):
        check((row["sheet"], row["card"], row["verdict"]) == (sheet, finding["card"], verdict), f"{path}: {row}")
        check(row["detail"] == verdict + (": " + words if words else ""), f"{path}: {row}")
        memory = finding.get("memory", {})
        for key in ("bytes", "runs", "byte", "wants", "has"):
            check(row[key] == str(memory.get(key, "")), f"{path}: {row}")
        for key in ("step", "register", "element", "row", "column"):
            check(row[key] == (str(memory[key]) if memory.get("stored") else ""), f"{path}: {row}")
        check(row["registers"] == str(finding.get("registers", {}).get("registers", "")), f"{path}: {row}")
        lead = finding.get("lead", {})
        check((row["lead_step"], row["lead_element"]) == (str(lead.get("step", "")), str(lead.get("element", ""))),
              f"{path}: {row}")
        names = next(entry["causes"] for entry in report["causes"] if entry["card"] == finding["card"])
        check(row["causes"] == "; ".join(names[i]["cause"] for i in finding.get("causes", [])), f"{path}: {row}")
        check(row["base"] == "10", f"{path}: {row}")
        identity = report["identity"]
        check((row["night"], row["date"], row["version"], row["edition"], row["digest"]) ==
              (identity["name"], identity["date"], identity["version"], str(identity["edition"]), identity["digest"]),
              f"{path}: {row}")


def text_of(element):
    return "".join(element.itertext())


def check_html(path, pairs, report):
    with open(path, encoding="utf-8") as file:
        page = file.read()
    root = ElementTree.fromstring(page)
    ids = [element.get("id") for element in root.iter() if element.get("id")]
    check(len(set(ids)) == len(ids), f"{path}: an id is there twice")
    for element in root.iter():
        check(element.tag in {"html", "head", "meta", "title", "style", "body", "header", "p", "h1", "h2", "h3",
                              "section", "div", "table", "thead", "tbody", "tr", "th", "td", "span", "a", "article",
                              "figure", "figcaption", "svg", "g", "use", "path", "text", "ul", "li", "b"},
              f"{path}: {element.tag}")
        for key, value in element.attrib.items():
            check(key in {"lang", "charset", "name", "content", "class", "id", "href", "colspan", "viewBox", "width",
                          "role", "aria-label", "d", "x", "y"}, f"{path}: {key}")
            check(key != "href" or value[0] == "#" and value[1:] in ids, f"{path}: {value}")
    check("url(" not in page and "@import" not in page, f"{path}: something from outside")

    cards = [readable(card) for card in report["cards"]]
    table = root.find(".//table")
    columns = [text_of(th).split()[1] for th in table.findall("thead/tr/th[@class='number']")]
    rows = [[text_of(row.find("th"))] + [int(text_of(td)) for td in row.findall("td[@class='number']")]
            for row in table.findall("tbody/tr")]
    check(rows == [[readable(t["card"])] + [t[v] for v in columns] for t in report["totals"]], f"{path}: the cards")
    check(all(v in columns or report["night"][v] == 0 for v in SIGNS), f"{path}: the cards' columns")
    check_page_causes(path, root, report)
    grid = root.find(".//table[@class='grid']")
    check([text_of(th) for th in grid.find("thead/tr")] == ["sheet"] + cards, f"{path}: the grid's head")
    articles = {a.get("id"): a for a in root.iter("article") if a.get("class") != "cause"}
    verdicts = {}
    for sheet, card, verdict, words in pairs:
        verdicts.setdefault(sheet, []).append((card, verdict, words))
    sheets = list(verdicts)
    position = 0
    for row in grid.findall("tbody/tr"):
        sheet, count = sheets[position], 1
        if row.get("class") == "run":
            count = int(re.search(r", (\d+) sheets$", text_of(row.find("th"))).group(1))
            run = sheets[position:position + count]
            check(text_of(row.find("th")) == f"{run[0]} to {run[-1]}, {count} sheets", f"{path}: {text_of(row)}")
            check(all([v for _, v, _ in verdicts[s]] == [v for _, v, _ in verdicts[sheet]] for s in run) and count >= 8,
                  f"{path}: {text_of(row)}")
        else:
            check(text_of(row.find("th")) == sheet, f"{path}: {sheet}")
        position += count
        for cell, (card, verdict, words) in zip(row.findall("td"), verdicts[sheet]):
            label = f"{card} differs on {sheet}" if verdict == "differs" else verdict
            check(text_of(cell) == SIGNS[verdict] and cell[0].get("class") == f"sign {verdict}", f"{path}: {sheet}")
            check(cell[0].get("aria-label") == label, f"{path}: {sheet}")
            if verdict == "differs":
                article = articles[cell[0].get("href")[1:]]
                check(text_of(article.find("div/h3")) == f"{card} on {sheet}", f"{path}: {sheet} {card}")
    check(position == len(sheets), f"{path}: sheets are left")
    differing = [(sheet, card, words) for sheet, card, verdict, words in pairs if verdict == "differs"]
    check(list(articles) == [f"d{i}" for i in range(len(differing))], f"{path}: the differences")
    for article, (sheet, card, words) in zip(articles.values(), differing):
        check(text_of(article.find("div/h3")) == f"{card} on {sheet}", f"{path}: {sheet} {card}")
        check("; ".join(text_of(p) for p in article.findall("div/p")) == words, f"{path}: {sheet} {card}")
        check_map(path, article, report, sheet, card)
    for sheet, card, verdict, words in pairs:
        if verdict in ("missing", "refused", "unreadable"):
            lines = [text_of(li) for li in root.iter("li")]
            check(any(li in (f"{sheet}, {card}: {verdict}: {words}", f"{sheet}, every card: {verdict}: {words}")
                      for li in lines), f"{path}: {sheet} {card}")
    differing = len({card for _, card, verdict, _ in pairs if verdict == "differs"})
    if differing:
        check(text_of(root.find(".//h1")).startswith(f"{differing} of {len(cards)} card"), f"{path}: the verdict")


def check_page_causes(path, root, report):
    """The causes come before the differences and the grid; cards lead to them, and they to their sheets."""
    headings = [text_of(h) for h in root.iter("h2")]
    order = [h for h in ("Since", "Cards", "Causes", "Differences", "Not compared", "Sheets and cards")
             if any(heading.startswith(h) for heading in headings)]
    check(len(order) == len(headings) and all(a.startswith(b) for a, b in zip(headings, order)), f"{path}: {headings}")
    articles = {a.get("id"): a for a in root.iter("article") if a.get("class") == "cause"}
    links = [a.get("href") for a in root.find(".//table").iter("a")]
    differing = [(s["sheet"], f["card"]) for s in report["sheets"] for f in s["findings"] if f["verdict"] == "differs"]
    for i, entry in enumerate(report["causes"]):
        check((f"#c{i}-0" in links) == bool(entry["causes"]), f"{path}: the link of {entry['card']}")
        for j, cause in enumerate(entry["causes"]):
            article = articles.pop(f"c{i}-{j}")
            check(text_of(article.find("div/h3")) == f"{readable(entry['card'])}: {cause['headline']}",
                  f"{path}: {cause['headline']}")
            linked = [differing[int(a.get("href")[2:])] for a in article.findall("div/p[@class='sheets']/a")]
            check(linked == [(sheet, entry["card"]) for sheet in cause["sheets"]], f"{path}: {cause['headline']}")
    check(not articles, f"{path}: a cause too many")


def check_map(path, article, report, sheet, card):
    finding = next(f for s in report["sheets"] if readable(s["sheet"]) == sheet for f in s["findings"]
                   if readable(f["card"]) == card)
    svg = article.find("figure/svg")
    check((svg is not None) == ("map" in finding), f"{path}: the map of {sheet} {card}")
    if svg is None:
        return
    cells = "".join(finding["map"])
    crosses = next(p for p in svg.iter("path") if p.get("class") == "m-cross").get("d")
    wanted = [(12 + 10 * (i % len(finding["map"][0])) + 3, 12 + 10 * (i // len(finding["map"][0])) + 3)
              for i, cell in enumerate(cells) if cell == "x"]
    found = [tuple(map(int, m)) for m in re.findall(r"M(\d+) (\d+)l4 4m0-4l-4 4", crosses)]
    check(found == wanted, f"{path}: the crosses of {sheet} {card}")
    area = 0
    for width in re.findall(r"h(\d+)v10", "".join(p.get("d") for p in svg.iter("path"))):
        area += int(width) // 10
    check(area == len(cells), f"{path}: the cells of {sheet} {card}")
    check(text_of(article.find("figure/figcaption")) == f"{cells.count('x')} of {len(cells)} elements differ",
          f"{path}: the words below the map of {sheet} {card}")


def main(text, json_path, csv_path, html, maps=None):
    night, pairs, causes, totals = read_text(text)
    if maps is not None:
        with open(maps, encoding="utf-8") as file:
            maps = json.load(file)
    report = check_json(json_path, pairs, totals, maps)
    check_identity(json_path, report, night)
    check_causes(json_path, report, pairs, causes)
    check_csv(csv_path, report, pairs)
    check_html(html, pairs, report)


if __name__ == "__main__":
    main(*sys.argv[1:])
