#!/usr/bin/env python3
"""Checks that docs/CLERK_API.md, docs/openapi.json and the definition of faults agree.

It compares paths, methods, statuses, faults, fields and examples, and needs no running program.
"""
import json
import os
import re
import shlex
import sys

ROOT = os.path.dirname(os.path.dirname(os.path.dirname(os.path.abspath(__file__))))
checks = 0
failures = 0


def check(holds, what):
    global checks, failures
    checks += 1
    if not holds:
        failures += 1
        print("FAILED", what)


def text_of(*parts):
    with open(os.path.join(ROOT, *parts), encoding="utf-8") as held:
        return held.read()


def tables(text):
    """The tables of a Markdown text: each a list of rows, the first with the names of the columns."""
    found, rows = [], []
    for line in text.splitlines() + [""]:
        if line.startswith("|"):
            cells = [cell.strip() for cell in line.strip("|").split("|")]
            if not set("".join(cells)) <= set("-"):
                rows.append(cells)
        elif rows:
            found.append(rows)
            rows = []
    return found


def table(text, *columns):
    """The one table that begins with these columns, without its head."""
    fitting = [rows for rows in tables(text) if rows[0][: len(columns)] == list(columns)]
    check(len(fitting) == 1, f"one table with the columns {columns}")
    return fitting[0][1:] if fitting else []


def bare(cell):
    return cell.strip("`")


def template(path):
    """A path of the Markdown as one of the JSON: its words in capital letters in braces."""
    return re.sub(r"(?<=/)([A-Z]+)(?=/|$)", r"{\1}", path)


def operations(api):
    """Each operation of the JSON, by its path and method."""
    return {
        (path, method.upper()): operation
        for path, item in api["paths"].items()
        for method, operation in item.items()
        if method != "parameters"
    }


def resolved(api, held):
    """What a reference stands for."""
    while "$ref" in held:
        target = api
        for part in held["$ref"].lstrip("#/").split("/"):
            target = target[part]
        held = target
    return held


def words_of(api, response):
    """The faults that a response may have."""
    content = resolved(api, response).get("content")
    if content is None:
        return []
    for part in content["application/json"]["schema"].get("allOf", []):
        if "properties" in part:
            return part["properties"]["fault"]["enum"]
    return []


def check_paths(text, api):
    told = {}
    for path, method, _, statuses in table(text, "Path", "Method"):
        told[template(bare(path)), method] = set(statuses.split())
    known = {key: set(operation["responses"]) for key, operation in operations(api).items()}
    for key in sorted(set(told) | set(known)):
        check(key in told, f"the Markdown has {key}")
        check(key in known, f"the JSON has {key}")
        check(told.get(key) == known.get(key), f"the statuses of {key}: {told.get(key)}, {known.get(key)}")
    names = [operation.get("operationId") for operation in operations(api).values()]
    check(None not in names and len(set(names)) == len(names), "each operation has a name of its own")
    for path, item in api["paths"].items():
        named = {parameter["name"] for parameter in item.get("parameters", [])}
        check(named == set(re.findall(r"\{(\w+)\}", path)), f"the parameters of {path}")


def check_faults(text, api):
    told = {bare(row[0]): row[1] for row in table(text, "Fault", "Status")}
    check(list(told) == api["components"]["schemas"]["Fault"]["properties"]["fault"]["enum"], "the faults of the JSON")
    used = set()
    for key, operation in operations(api).items():
        for status, response in operation["responses"].items():
            for word in words_of(api, response):
                used.add(word)
                check(told.get(word) == status, f"{word} of {key} has the status {status}")
            if status in ("500", "503"):
                check("content" not in resolved(api, response), f"{status} of {key} has no body")
    check(set(told) - used == {"no-method"}, "each fault is one of an operation")
    definition = text_of("crates", "off_clerk_rules", "specs", "Faults.antt")
    defined = {(word, status) for status, word in re.findall(r'answer (\d+) \(codes "([^"]*)"\)', definition)}
    imports = text_of("crates", "off_import_rules", "specs", "Faults.antt")
    for status in re.findall(r"^fault_status \w+ = (\d+)$", imports, re.M):
        defined.update((word, status) for word in re.findall(r'^fault_word .*= codes "([^"]*)"$', imports, re.M))
    check(len(defined) > 24, "the definitions' words are found")
    check(defined == set(told.items()), f"the definition's faults: {sorted(defined ^ set(told.items()))}")


def fits(template_path, path):
    return re.fullmatch(re.sub(r"\{\w+\}", r"[^/]+", template_path), path) is not None


def check_examples(text, api):
    known = operations(api)
    shown = set()
    for table, line in re.findall(r"^    (?:printf '([^']*)' \| )?(curl .*)$", text, re.M):
        words = shlex.split(line)
        method = words[words.index("-X") + 1] if "-X" in words else "GET"
        url = next(word for word in words if word.startswith("http://"))
        path = url[len(api["servers"][0]["url"]) :]
        check(url.startswith(api["servers"][0]["url"]), f"the server of {url}")
        keys = [key for key in known if key[1] == method and fits(key[0], path)]
        check(len(keys) == 1, f"{method} {path} is one operation")
        shown.update(keys)
        check(("-d" in words or "--data-binary" in words) == (method == "PUT"), f"a body of {method} {path}")
        check(("--data-binary" in words) == bool(table), f"a table for {method} {path}")
        if method == "PUT" and keys:
            content = known[keys[0]]["requestBody"]["content"]
            if table:
                check(table.replace("\\n", "\n") == content["text/csv"]["example"], f"the table of {method} {path}")
            else:
                example = content["application/json"]["example"]
                check(json.loads(words[words.index("-d") + 1]) == example, f"the body of {method} {path}")
    check(shown == set(known), f"operations without an example: {sorted(set(known) - shown)}")
    answers = re.findall(r"answers `([^`]*)`", text)
    examples = [
        operation["responses"]["200"]["content"]["application/json"]["example"]
        for (_, method), operation in known.items()
        if method == "GET"
    ]
    for answer in answers:
        held = json.loads(answer)
        check(json.dumps(held, sort_keys=True, separators=(",", ":")) == answer, f"the form of {answer}")
        check(held in examples, f"the JSON has {answer}")
    check(len(answers) == len(examples), "each GET has an answer")


def check_fields(text, api):
    schemas = api["components"]["schemas"]
    told = [[bare(row[0]) for row in rows[1:]] for rows in tables(text) if rows[0][0] == "Field"]
    known = [list(schemas[name]["properties"]) for name in ("Hub", "Class", "Pool", "Subscriber", "AddOn", "Modem", "Lease")]
    check(told == known, f"the fields: {told}")
    pool, devices = (list(schemas[name]["properties"].items()) for name in ("Pool", "DevicePool"))
    check([name for name, _ in pool[len(devices):]] == ["hub"] and pool[:len(devices)] == devices, "a pool for devices has a pool's fields but the hub")
    for name, schema in schemas.items():
        for field in schema.get("required", []):
            check(field in schema["properties"], f"{name} has {field}")


def main():
    text = text_of("docs", "CLERK_API.md")
    api = json.loads(text_of("docs", "openapi.json"))
    check(api["openapi"].startswith("3.1."), "the version of OpenAPI")
    check_paths(text, api)
    check_faults(text, api)
    check_examples(text, api)
    check_fields(text, api)
    print(f"{checks} checks, {failures} failed")
    return 1 if failures else 0


if __name__ == "__main__":
    sys.exit(main())
