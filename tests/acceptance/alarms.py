#!/usr/bin/env python3
"""The alarms of packaging/prometheus-rules.yml are those of docs/ALARMS.md, over words that exist.

Each rule's words stand in docs/MESSAGES.md under their service, and its counters are those that
office-counts writes. Where promtool is there it judges the rules; and they are tried by it over
counters of this script: some alarms come, the others don't. packaging/grafana-dashboard.json is of
the form that Grafana reads, as far as is known without one: its panels have places of their own,
and its queries name what office-counts writes; promtool, where it's there, reads them.
"""
import json
import os
import re
import shutil
import subprocess
import sys
import tempfile

from harness import ROOT, check, script, text_of
from every_word import FAULTS, sections

RULES = os.path.join(ROOT, "packaging", "prometheus-rules.yml")
SECTIONS = {"dhcp": ("DHCP", "Devices"), "tftp": ("TFTP",), "time": ("Time",),
            "http": ("Clerks in the log",)}
# Counters by minute, and the alarms that they give at their end, of those that are asked for.
TRIAL = """
rule_files: [%s]
evaluation_interval: 1m
tests:
  - interval: 1m
    input_series:
      - series: 'officed_lines_total{service="dhcp",word="pool-full"}'
        values: '0x20 1x40'
      - series: 'officed_lines_total{service="dhcp",word="offer"}'
        values: '0+120x60'
      - series: 'officed_lines_total{service="dhcp",word="ack"}'
        values: '0+30x60'
      - series: 'officed_lines_total{service="dhcp",word="keeper"}'
        values: '0x60'
      - series: 'officed_lines_total{service="office",word="keeper refused"}'
        values: '0x40 1+1x20'
      - series: 'officed_lines_total{instance="one",job="node",service="tftp",word="block"}'
        values: '0+600x60'
      - series: 'officed_transfers_sent_again_total{instance="one",job="node"}'
        values: '0+90x60'
      - series: 'node_systemd_unit_state{name="officed.service",state="active"}'
        values: '1x40'
      - series: 'officed_pool_state{pool="1",kind="modems",state="free"}'
        values: '24x60'
      - series: 'officed_pool_state{pool="2",kind="modems",state="free"}'
        values: '26x60'
      - series: 'officed_pool_state{pool="1",kind="devices",state="free"}'
        values: '0x60'
      - series: 'officed_pool_addresses{pool="1",kind="modems"}'
        values: '240x60'
      - series: 'officed_pool_addresses{pool="2",kind="modems"}'
        values: '240x60'
      - series: 'officed_pool_addresses{pool="1",kind="devices"}'
        values: '90x60'
      - series: 'officed_backup_age_seconds'
        values: '86400+60x200'
      - series: 'officed_lines_total{service="http",word="404 no-row"}'
        values: '0+120x60'
      - series: 'node_textfile_mtime_seconds{file="/metrics/officed.prom"}'
        values: '0+60x60'
    alert_rule_test:
      - {eval_time: 30m, alertname: OfficePoolNearlyFull, exp_alerts: [{exp_labels:
         {severity: ticket, pool: "1", kind: modems},
         exp_annotations: {summary: "Pool 1 is 90 %% full"}}]}
      - {eval_time: 10m, alertname: OfficePoolNearlyFull, exp_alerts: []}
      - {eval_time: 30m, alertname: OfficeDevicePoolNearlyFull, exp_alerts: [{exp_labels:
         {severity: ticket, pool: "1", kind: devices},
         exp_annotations: {summary: "Pool 1 for devices is 90 %% full"}}]}
      - {eval_time: 50m, alertname: OfficeBackupOld, exp_alerts: []}
      - {eval_time: 50m, alertname: OfficeClerksRefused, exp_alerts: []}
      - {eval_time: 30m, alertname: OfficePoolFull, exp_alerts: [{exp_labels: {severity: page},
         exp_annotations: {summary: "A pool of addresses is full"}}]}
      - {eval_time: 15m, alertname: OfficePoolFull, exp_alerts: []}
      - {eval_time: 50m, alertname: OfficeKeeperFails, exp_alerts: []}
      - {eval_time: 50m, alertname: OfficeManyBoot, exp_alerts: []}
      - {eval_time: 30m, alertname: OfficeEnds, exp_alerts: []}
      - {eval_time: 50m, alertname: OfficeEnds, exp_alerts: [{exp_labels: {severity: page},
         exp_annotations: {summary: "The office ended by itself, and is started again and again"}}]}
      - {eval_time: 50m, alertname: OfficeResends, exp_alerts: [{exp_labels: {severity: ticket},
         exp_annotations: {summary: "Packets are lost between the office and modems"}}]}
      - {eval_time: 30m, alertname: OfficeDown, exp_alerts: []}
      - {eval_time: 55m, alertname: OfficeDown, exp_alerts: [{exp_labels: {severity: page,
         name: officed.service, state: active},
         exp_annotations: {summary: "The office isn't running, or its counters stand still"}}]}
      - {eval_time: 50m, alertname: OfficeOffersAreLost, exp_alerts: [{exp_labels: {severity: page},
         exp_annotations: {summary: "Modems are offered addresses and don't take them"}}]}
"""


def words_exist(rules):
    """Each word of a rule is one of its service, or of each."""
    found, _ = sections()
    general = found["Each service"]
    for labels in re.findall(r"officed_lines_total\{([^}]*)\}", rules):
        about = dict(re.findall(r'(\w+)=~?"([^"]*)"', labels))
        own = [word for name in SECTIONS.get(about.get("service"), ()) for word in found[name]]
        known = own if "service" in about else general
        for word in about["word"].split("|") if "word" in about else ():
            if about.get("service") == "http":
                check(any(re.fullmatch(word, f"409 {fault}") for fault in FAULTS), f"http {word}")
            else:
                check(word in known, f"{labels}: {word} is a word")


def words_begin(rules):
    """Each word of a rule is counted from the start, before any line has it."""
    with tempfile.TemporaryDirectory() as folder:
        path = os.path.join(folder, "officed.prom")
        subprocess.run([os.path.join(ROOT, "bin", "office-counts"), "--prometheus", path],
                       stdin=subprocess.DEVNULL, check=True)
        with open(path, encoding="utf-8") as held:
            begun = re.findall(r'officed_lines_total\{service="(\w+)",word="([^"]*)"\} 0', held.read())
    for labels in re.findall(r"officed_lines_total\{([^}]*)\}", rules):
        about = dict(re.findall(r'(\w+)=~?"([^"]*)"', labels))
        for word in about.get("word", "").split("|"):
            # Which faults clerks meet can't be said before.
            check(about.get("service") == "http" or any(
                about.get("service", service) == service and word in ("", known)
                for service, known in begun), f"{labels}: {word} is counted from the start")


def queries_of(board):
    return [target["expr"] for panel in board["panels"] for target in panel["targets"]]


def dashboard(counts):
    """The dashboard's form; gives its queries as rules, for promtool."""
    board = json.loads(text_of("packaging", "grafana-dashboard.json"))
    check({"title", "uid", "schemaVersion", "panels", "templating", "time"} <= set(board), "fields")
    variables = {each["name"] for each in board["templating"]["list"]}
    ids, taken = set(), set()
    for panel in board["panels"]:
        place = panel["gridPos"]
        cells = {(x, y) for x in range(place["x"], place["x"] + place["w"])
                 for y in range(place["y"], place["y"] + place["h"])}
        check(panel["id"] not in ids and not cells & taken and place["x"] + place["w"] <= 24,
              f"the place of {panel['title']}")
        check(panel["type"] in ("timeseries", "stat", "bargauge") and panel["targets"]
              and {"defaults", "overrides"} <= set(panel["fieldConfig"]), panel["title"])
        check(panel["datasource"]["uid"].strip("${}") in variables, "the data source is chosen")
        ids, taken = ids | {panel["id"]}, taken | cells
    shown = set(re.findall(r"officed_\w+", " ".join(queries_of(board))))
    written = set(re.findall(r'"(officed_[a-z_]+)"', counts))
    check(shown == written, f"the dashboard shows what is written: {shown ^ written}")
    rules = [{"record": f"trial:{at}", "expr": each} for at, each in enumerate(queries_of(board))]
    return json.dumps({"groups": [{"name": "queries", "rules": rules}]})


def main():
    with open(RULES, encoding="utf-8") as held:
        rules = held.read()
    names = re.findall(r"- alert: (\w+)", rules)
    told = re.findall(r"(?m)^\| `(Office\w+)` \|", text_of("docs", "ALARMS.md"))
    check(names == told, f"the alarms of the page: {set(names) ^ set(told)}")
    words_exist(rules)
    words_begin(rules)
    counts = text_of("bin", "office-counts")
    for name in set(re.findall(r"officed_\w+(?=[{ )\[])", rules)):
        check(f'"{name}"' in counts, f"office-counts writes {name}")
    queries = dashboard(counts)
    tool = shutil.which("promtool")
    if tool:
        done = subprocess.run([tool, "check", "rules", RULES], stdout=subprocess.PIPE,
                              stderr=subprocess.STDOUT)
        check(done.returncode == 0, f"promtool takes them: {done.stdout.decode()}")
        with tempfile.TemporaryDirectory() as folder:
            trial = os.path.join(folder, "queries.yml")
            with open(trial, "w", encoding="utf-8") as held:
                held.write(queries)
            done = subprocess.run([tool, "check", "rules", trial], stdout=subprocess.PIPE,
                                  stderr=subprocess.STDOUT)
            check(done.returncode == 0, f"the dashboard's queries: {done.stdout.decode()}")
            trial = os.path.join(folder, "trial.yml")
            with open(trial, "w", encoding="utf-8") as held:
                held.write(TRIAL % RULES)
            done = subprocess.run([tool, "test", "rules", trial], stdout=subprocess.PIPE,
                                  stderr=subprocess.STDOUT)
        check(done.returncode == 0, f"the alarms that come: {done.stdout.decode()}")
    else:
        print("promtool: skipped, since it isn't here")
    print(f"{len(names)} alarms")


if __name__ == "__main__":
    sys.exit(script(main, needs_program=False))
