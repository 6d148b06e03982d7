#!/usr/bin/env python3
"""Reads the files of examples/ for Kubernetes, systemd, Prometheus and Grafana, and tries what of them can be tried.

    python3 tests/examples.py PATH-TO-HHM

The container's command runs as process 1 of a namespace; each name of a metric must be one that `hhmc metrics` writes
of a server that has put, saved and refused. Where there is no `promtool`, no `systemd-analyze`, no module
`yaml`, or no right to make a namespace, a line says so. It prints a line for each check that fails and at the end
`N passed, M failed`; the status is 1 where one fails. Linux, and nothing but Python's own library and the clients of
clients/python.
"""
import contextlib
import json
import os
import re
import shutil
import signal
import subprocess
import sys

import plain_yaml
import server
from server import Server, check

TOP = os.path.dirname(server.HERE)
WAIT = 30
METRIC = re.compile(r"\b(?:hhm|process)_[a-z_0-9]+")


def text_of(*names):
    with open(os.path.join(TOP, "examples", *names), encoding="utf-8") as file:
        return file.read()


def read(*names):
    """The documents of a YAML file, which `yaml` reads so too."""
    text = text_of(*names)
    found = plain_yaml.documents(text)
    try:
        import yaml
    except ImportError:
        print(f"not tried: {names[-1]} by yaml: there is no such module")
        return found
    check(f"{names[-1]}: as yaml reads it", found, list(yaml.safe_load_all(text)))
    return found


def missing(value, wanted, path=""):
    """What a value lacks of a form: a type or a value, a map of forms by their keys, or a list of one form for all."""
    if isinstance(wanted, dict):
        return [it for key, form in wanted.items()
                for it in (missing(value[key], form, f"{path}.{key}") if key in value else [f"{path}.{key}"])]
    if isinstance(wanted, list):
        return [it for at, item in enumerate(value) for it in missing(item, wanted[0], f"{path}[{at}]")]
    is_right = isinstance(value, wanted) if isinstance(wanted, type) else value == wanted
    return [] if is_right else [f"{path}: {value!r}"]


# Kubernetes.

HARD = {"allowPrivilegeEscalation": False, "readOnlyRootFilesystem": True, "capabilities": {"drop": ["ALL"]}}


def the_containers_are_bounded(template):
    """The container has no rights that it doesn't need, limits, probes without a program, and places for its files."""
    [container] = template["containers"]
    check("kubernetes: rights", container["securityContext"], HARD)
    as_user = template["securityContext"]
    check("kubernetes: a user", (as_user["runAsNonRoot"], as_user["runAsUser"] > 0, as_user["fsGroup"]),
          (True, True, as_user["runAsGroup"]))
    resources = container["resources"]
    check("kubernetes: limits", [set(resources[it]) for it in ("limits", "requests")], [{"cpu", "memory"}] * 2)
    probes = {name: container[name] for name in container if name.endswith("Probe")}
    check("kubernetes: probes", set(probes), {"startupProbe", "readinessProbe"})
    check("kubernetes: what they ask", [it["tcpSocket"] for it in probes.values()], [{"port": 7000}] * 2)
    check("kubernetes: no hook", "lifecycle" in container, False)
    places = [it["mountPath"] for it in container["volumeMounts"]]
    paths = [it.partition("=")[2] for it in container["command"] if "=/" in it]
    outside = [it for it in paths if not any(it.startswith(f"{place}/") for place in places)]
    check("kubernetes: files on volumes", (len(paths) >= 3, outside), (True, []))


def the_container_ends_in_order(command):
    """As process 1 of a namespace, where a signal without a handler is ignored, it saves and ends at SIGTERM."""
    if not shutil.which("unshare") or ran("unshare", "--pid", "--fork", "true")[0] != 0:
        print("not tried: the container's command: no namespace can be made here")
        return
    programs, folders = os.path.join(server.FOLDER, "bin"), ("data", "run")
    for name in ("bin", *folders):
        os.mkdir(os.path.join(server.FOLDER, name))
    shutil.copy(server.PROGRAM, os.path.join(programs, "hhm"))
    shutil.copy(os.path.join(TOP, "tools", "hhm-run"), programs)
    changes = {"/usr/local/bin": programs, "/data": os.path.join(server.FOLDER, "data"), "7000": "0",
               "/run/hhm": os.path.join(server.FOLDER, "run"), "0.0.0.0": "127.0.0.1"}
    words = []
    for word in command:
        for old, new in changes.items():
            word = word.replace(old, new)
        words.append(word)
    path = os.path.join(changes["/run/hhm"], "hhm.sock")
    outputs = {"stdout": subprocess.PIPE, "stderr": subprocess.DEVNULL}
    with subprocess.Popen(["unshare", "--pid", "--fork", *words], text=True, **outputs) as outer:
        try:
            lines = [outer.stdout.readline() for _ in range(2)]
            check("container: it listens", lines[1], f"listening unix {path}\n")
            with server.Client(unix=path, client=1) as hhm:
                hhm.put(1, [(0, 0, 5)])
            with open(f"/proc/{outer.pid}/task/{outer.pid}/children") as file:
                os.kill(int(file.read()), signal.SIGTERM)
            output, _ = outer.communicate(timeout=WAIT)
        except subprocess.TimeoutExpired:
            output = "it goes on"
        finally:
            outer.kill()
    check("container: its end", (output, outer.returncode), ("stopped batches 1 total 5\n", 0))
    check("container: what is saved", ran(server.PROGRAM, "check", f"{changes['/data']}/sum.snap")[1].split()[6:10],
          ["batches", "1", "total", "5"])


def ran(*words):
    """The status of a command and what it writes to both outputs."""
    ended = subprocess.run(words, capture_output=True, text=True, timeout=WAIT)
    return ended.returncode, ended.stdout, ended.stderr


def kubernetes():
    service, servers = read("kubernetes", "hhm.yaml")
    labels = servers["spec"]["template"]["metadata"]["labels"]
    check("kubernetes: kinds", (service["kind"], servers["kind"]), ("Service", "StatefulSet"))
    check("kubernetes: labels", [service["spec"]["selector"], servers["spec"]["selector"]["matchLabels"]], [labels] * 2)
    check("kubernetes: the service", servers["spec"]["serviceName"], service["metadata"]["name"])
    template = servers["spec"]["template"]["spec"]
    the_containers_are_bounded(template)
    command = template["containers"][0]["command"]
    check("kubernetes: the program", command[0], "/usr/local/bin/hhm-run")
    known = "".join(ran(*it, "--help")[1] for it in [(server.PROGRAM, "serve"), (f"{TOP}/tools/hhm-run",)])
    check("kubernetes: options", [it for it in command[1:] if f" {it.partition('=')[0]} " not in known], [])
    the_container_ends_in_order(command)


# systemd.

UNITS = {
    "systemd": ("hhm@.service",),
    "windows": ("hhm-windows.service", "hhm-windows.timer", "hhm-rolled.service", "hhm-rolled.timer"),
}


def settings_of(unit):
    """The lines NAME=VALUE of a unit, those that go on below as one."""
    return dict(re.findall(r"^(\w+)=(.*)$", unit.replace("\\\n", " "), re.M))


def systemd():
    """Both units end in order at a signal, and aren't started again where the status says that it can't help."""
    with open(os.path.join(TOP, "tools", "hhm.service"), encoding="utf-8") as file:
        package = settings_of(file.read())
    hour = settings_of(text_of("systemd", "hhm@.service"))
    program, *words = hour["ExecStart"].split()
    known = "".join(ran(*it, "--help")[1] for it in [(server.PROGRAM, "serve"), (f"{TOP}/tools/hhm-run",)])
    check("systemd: options", [it for it in words if it.startswith("--") and f" {it} " not in known], [])
    # docs/OPERATING.md: 2 for the options, 3 for a file that is none of hhm's, 5 for memory.
    for name, unit in [("hhm.service", package), ("hhm@.service", hour)]:
        check(f"{name}: the program", unit["ExecStart"].split()[0], "/usr/local/bin/hhm-run")
        check(f"{name}: starts", (unit["Restart"], unit["RestartPreventExitStatus"]), ("on-failure", "2 3 5"))
        check(f"{name}: its end", (unit["KillMode"], unit["TimeoutStopSec"]), ("mixed", "900"))
    if not shutil.which("systemd-analyze"):
        print("not tried: the units by systemd: there is no systemd-analyze")
        return
    places = {"/usr/local/bin/hhm-run": f"{TOP}/tools/hhm-run",
              "/usr/local/lib/hhm/windows.sh": f"{TOP}/examples/windows/windows.sh",
              "/usr/local/lib/hhm/rolled.sh": f"{TOP}/examples/windows/rolled.sh"}
    folder = os.path.join(server.FOLDER, "units")
    os.mkdir(folder)
    for where, name in [(where, name) for where, names in UNITS.items() for name in names]:
        text = text_of(where, name)
        for old, new in places.items():
            text = text.replace(old, new)
        with open(os.path.join(folder, name.replace("@", "@2026112718")), "w") as file:
            file.write(text)
    paths = [os.path.join(folder, it) for it in sorted(os.listdir(folder))]
    status, output, error = ran("systemd-analyze", "verify", "--man=no", *paths)
    check("systemd-analyze verify", (status, [it for it in (output + error).splitlines() if "hhm" in it]), (0, []))


# Prometheus and Grafana.


def names_that_are_written():
    """The metrics that `hhmc metrics` writes of a server with a log that has put, saved, and refused."""
    from hhm_client import Client, Refused
    from hhm_figures import Watched
    from hhm_metrics import Looker, metrics_of

    paths = [os.path.join(server.FOLDER, name) for name in ("metrics.snap", "metrics.log")]
    with Server(["--rows", "9", "--cols", "9", "--snapshot", paths[0], "--log", paths[1]], tcp=False) as at:
        with at.client(1) as hhm:
            hhm.put(1, [(0, 0, 5)])
            hhm.save()
            with contextlib.suppress(Refused):
                hhm.put(1, [(0, 0, 6)])
            # (a reply may come before it is counted, but the next one doesn't)
            hhm.status()
            looker = Looker(Watched(Client(unix=at.path)), 1.0)
            looker.look()
            looker.seen.hhm.close()
        text = metrics_of([looker])
    check("metrics: a refusal by its name", 'hhm_refused_total{code="30",name="NumberReused"} 1\n' in text, True)
    return names_in(text) | names_of_what_is_left()


def names_in(text):
    return {METRIC.match(line)[0] for line in text.splitlines() if not line.startswith("#")}


def names_of_what_is_left():
    """The metrics of what is left, and of a failure, of a server in Python that tells them. A batch comes between two
    looks, and a page of its log."""
    from hhm_client import Client
    from hhm_figures import Watched
    from hhm_metrics import Looker, metrics_of
    from stand_in import StandIn

    told = {"batches_left": 9, "total_left": 9, "log_bytes_left": 9000, 'last_failure{code="42",why="no-space"}': 1}
    with StandIn(stats=told) as at, Client(unix=at.path, client=1) as hhm:
        looker = Looker(Watched(hhm), 1.0)
        looker.look()
        hhm.put(1, [(0, 0, 5)])
        at.stats = {**told, "log_bytes_left": 4904}
        looker.look()
        return names_in(metrics_of([looker]))


def unknown_names(expression, names):
    """The metrics of an expression that nobody writes, and the names of refusals that there aren't."""
    from hhm_client import CODES

    refusals = re.findall(r'name="(\w+)"', expression)
    return [it for it in METRIC.findall(expression) if it not in names] + [it for it in refusals
                                                                           if it not in CODES.values()]


ALERT = {"alert": str, "expr": str, "labels": {"severity": str}, "annotations": {"summary": str, "action": str}}


def alerts(names):
    [text] = read("prometheus", "alerts.yml")
    [group] = text["groups"]
    rules = group["rules"]
    check("alerts: fields", missing(rules, [ALERT]), [])
    check("alerts: names", len({it["alert"] for it in rules}), len(rules))
    check("alerts: severities", {it["labels"]["severity"] for it in rules}, {"page", "warning"})
    for rule in rules:
        check(f"alerts: metrics of {rule['alert']}", unknown_names(rule["expr"], names), [])
        check(f"alerts: {rule['alert']} has a metric", METRIC.search(rule["expr"]) is not None, True)
    if not shutil.which("promtool"):
        print("not tried: alerts by promtool: it isn't there")
        return
    path = os.path.join(TOP, "examples", "prometheus", "alerts.yml")
    check("alerts: promtool", ran("promtool", "check", "rules", path)[::2], (0, ""))
    alerts_fire(path, {it["alert"] for it in rules})


# For each alert values of metrics, one a minute, that make it fire in two hours.
FIRING = {
    "HhmDown": {"hhm_up": "0x120"},
    "HhmRestarts": {"hhm_uptime_seconds": "5x100 4 3 2x20"},
    "HhmLogFailed": {'hhm_refused_total{name="LogFailed"}': "0x115 1x5"},
    "HhmLogFull": {'hhm_refused_total{name="LogFull"}': "0x115 1x5"},
    "HhmSaveFailed": {"hhm_failed_saves_total": "0x115 1x5"},
    "HhmMemory": {'hhm_refused_total{name="Memory"}': "0x115 1x5"},
    "HhmBookFull": {"hhm_batches": "96x120", "hhm_max_batches": "100x120"},
    "HhmBookFills": {"hhm_total": "81x120", "hhm_limit": "100x120"},
    "HhmBookFullInAWeek": {"hhm_batches": "0+1x120", "hhm_max_batches": "9000x120"},
    "HhmFullInADay": {"hhm_batches_left_days": "_x100 0.9x20"},
    "HhmFullInAWeek": {"hhm_total_left_days": "8x50 6x70", "hhm_log_bytes_left_days": "9x120"},
    "HhmLogFills": {"hhm_log_bytes_left": "819200x120", "hhm_log_pages": "900x120"},
    "HhmNumberReused": {'hhm_refused_total{name="NumberReused"}': "0x115 1x5"},
    "HhmNotSaved": {"hhm_save_age_seconds": "90000x120", "hhm_batches": "2x120", "hhm_saved_batches": "1x120"},
    "HhmLogLong": {"hhm_log_pages": "300000x120"},
    "HhmNoWorker": {"hhm_sessions_waiting": "1x120"},
    "HhmSlow": {"hhm_status_seconds": "2x120"},
}


# Values of a server that is well, of which no alert may come.
QUIET = {
    "hhm_up": "1x120", "hhm_uptime_seconds": "60+60x120", "hhm_failed_saves_total": "3x120", "hhm_batches": "79+0x120",
    "hhm_max_batches": "100x120", "hhm_total": "79x120", "hhm_limit": "100x120", "hhm_batches_left_days": "8x120",
    "hhm_total_left_days": "8x120", "hhm_log_bytes_left_days": "8x120", "hhm_log_bytes_left": "819200x120",
    "hhm_log_pages": "40x120", "hhm_save_age_seconds": "80000x120", "hhm_saved_batches": "70x120",
    "hhm_sessions_waiting": "0x120", "hhm_status_seconds": "0.5x120",
    **{f'hhm_refused_total{{name="{it}"}}': "5x120" for it in ("LogFailed", "LogFull", "Memory", "NumberReused")},
}


def alerts_fire(path, names):
    """Each alert fires where its numbers say so, and none of a server that is well, by promtool's own test of rules."""
    quiet = [{"series": it, "values": values} for it, values in QUIET.items()]
    tests = [{"interval": "1m", "input_series": quiet, "promql_expr_test": [
        {"expr": "count(ALERTS)", "eval_time": "2h", "exp_samples": []}]}]
    check("alerts: each has values that make it fire", set(FIRING), names)
    for name, series in FIRING.items():
        given = [{"series": it, "values": values} for it, values in {"hhm_up": "1x120", **series}.items()]
        tests.append({"interval": "1m", "input_series": given, "promql_expr_test": [
            {"expr": f'count(ALERTS{{alertname="{name}",alertstate="firing"}})', "eval_time": "2h",
             "exp_samples": [{"labels": "{}", "value": 1}]}]})
    file = os.path.join(server.FOLDER, "alerts.json")
    with open(file, "w") as text:
        json.dump({"rule_files": [path], "evaluation_interval": "1m", "tests": tests}, text)
    status, output, error = ran("promtool", "test", "rules", file)
    check("alerts: promtool test rules", (status, output if status else "", error), (0, "", ""))


PLACE = {"x": int, "y": int, "w": int, "h": int}
SOURCE = {"type": "prometheus", "uid": "${datasource}"}
PANEL = {"id": int, "type": str, "title": str, "datasource": SOURCE, "gridPos": PLACE,
         "fieldConfig": {"defaults": {"unit": str}, "overrides": list},
         "targets": [{"refId": str, "expr": str, "legendFormat": str}]}
BOARD = {"uid": str, "title": str, "schemaVersion": int, "time": {"from": str, "to": str},
         "templating": {"list": [{"name": str, "type": str}]}, "panels": [PANEL]}


def dashboard(names):
    board = json.loads(text_of("grafana", "hhm.json"))
    check("dashboard: fields", missing(board, BOARD), [])
    panels = board["panels"]
    check("dashboard: kinds", {it["type"] for it in panels} <= {"stat", "timeseries"}, True)
    check("dashboard: numbers", len({it["id"] for it in panels}), len(panels))
    places = [(x, y) for it in panels for at in [it["gridPos"]]
              for x in range(at["x"], at["x"] + at["w"]) for y in range(at["y"], at["y"] + at["h"])]
    check("dashboard: places", (len(set(places)), max(x for x, _ in places)), (len(places), 23))
    variables = {it["name"] for it in board["templating"]["list"]}
    for panel in panels:
        letters = [it["refId"] for it in panel["targets"]]
        check(f"dashboard: {panel['title']}: targets", sorted(set(letters)), letters)
        for target in panel["targets"]:
            expression = target["expr"]
            check(f"dashboard: {expression}", unknown_names(expression, names), [])
            check(f"dashboard: {expression}: variables", set(re.findall(r"\$(\w+)", expression)) <= variables, True)
    expressions = [it["expr"].replace("$instance", ".*") for panel in panels for it in panel["targets"]]
    if shutil.which("promtool"):
        rules = [{"record": f"hhm:dashboard:{at}", "expr": it} for at, it in enumerate(expressions)]
        file = os.path.join(server.FOLDER, "dashboard.json")
        with open(file, "w") as text:
            json.dump({"groups": [{"name": "dashboard", "rules": rules}]}, text)
        check("dashboard: promtool", ran("promtool", "check", "rules", file)[::2], (0, ""))


def the_reader_refuses_what_it_cant_read():
    for text in ["a: |\n  b\n", "a: b: c\n", "a: 1\na: 2\n", "a: 1\n  b: 2\n", "a: {b: c}\n", "x\n", "a: 'b'\n"]:
        try:
            check(f"yaml: {text!r}", plain_yaml.documents(text), "refused")
        except ValueError:
            check(f"yaml: {text!r}", "refused", "refused")


def all_are_tried():
    the_reader_refuses_what_it_cant_read()
    kubernetes()
    systemd()
    names = names_that_are_written()
    alerts(names)
    dashboard(names)


if __name__ == "__main__":
    sys.exit(server.run_all(all_are_tried))
