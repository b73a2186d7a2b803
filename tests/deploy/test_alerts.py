"""The alerts for Prometheus and the dashboard for Grafana use documented metrics, and each alert fires when it must, and only then."""
import json
import re
import subprocess
from collections.abc import Iterator
from pathlib import Path

import pytest
from base import TOP, read
from bayeuxd import Bayeuxd

UPTIME, MOST = "bayeux_uptime_seconds_total", 'bayeux_limit{name="sessions"}'
OPEN, MOST_OPEN, SERVED = (f'{it}{{job="bayeuxd"}}' for it in ("process_open_fds", "process_max_fds", "up"))
CONNECTED, ANSWERED = "bayeux_connections_total", 'bayeux_responses_total{status="200"}'
LOST = 'bayeux_requests_refused_total{status="503",reason="the answer is unavailable"}'
SLOW, TIMED = 'bayeux_processing_seconds_bucket{le="1"}', "bayeux_processing_seconds_count"
ERROR = 'bayeux_errors_total{{error="{}"}}'
# For each alert, courses of metrics: a value in usual times, shortly before the alert fires, and one in trouble, shortly beyond that.
# A counter grows by this number each minute. `None`: there is no such metric.
Course = dict[str, tuple[int | None, int | None]]
COURSES: dict[str, list[Course]] = {
    "BayeuxGone": [{SERVED: (1, 0)}],
    "BayeuxSessionsNearTheirLimit": [{"bayeux_sessions": (799, 801), MOST: (1000, 1000)}],
    "BayeuxHandshakesRejected": [{ERROR.format("503::Too many sessions"): (0, 1)}],
    "BayeuxDescriptorsRunOut": [{OPEN: (799, 801), MOST_OPEN: (1000, 1000), SERVED: (1, 1)}, {MOST_OPEN: (1000, None), SERVED: (1, 1)}],
    "BayeuxRequestsRefused": [{'bayeux_requests_refused_total{status="503",reason="out of memory"}': (0, 1)}],
    "BayeuxAnswersLost": [{it: (0, 1), UPTIME: (60, 60)} for it in (LOST, "bayeux_responses_missing_total")],
    "BayeuxShardsBehind": [{"bayeux_shards_behind": (0, 1)}],
    "BayeuxWindowNearlyFull": [{"bayeux_window_batches": (3072, 3073)}],
    "BayeuxSlowTicks": [{"bayeux_ticks_total": (490, 470), UPTIME: (60, 60)}],
    "BayeuxSlowRequests": [{TIMED: (600, 601), SLOW: (600, 600)}],
    "BayeuxSessionsOverflow": [{ERROR.format("413::Queue overflow"): (0, 1)}],
    "BayeuxRecordEnded": [{"bayeux_recording": (1, 0), "bayeux_record_bytes_total": (60, 60)}],
    # Few connections are none too many, even if there are hardly more responses.
    "BayeuxNobodyKeepsConnections": [{CONNECTED: (2900, 3100), ANSWERED: (6000, 6000)}, {CONNECTED: (50, 70), ANSWERED: (50, 80)}],
}
# Trouble lasts from one of these minutes up to the other. An alert fires at most so many minutes after its begin, and after its end.
BEGIN, END, LATE = 20, 50, 14
# Servers of other jobs, which do not count.
OTHERS = {'up{job="other"}': "0x99", 'process_open_fds{job="other"}': "900x99", 'process_max_fds{job="other"}': "1000x99"}
# The seconds since the start of a server that restarts at minute 20.
RESTARTED = "0+60x19 5+60x49"
# The metrics with a reason or an error for which an alert fires. For those of no alert, none does.
COUNTED = {
    "BayeuxRequestsRefused": 'status="503",reason="(?!the answer is unavailable|the server is shutting down)',
    "BayeuxHandshakesRejected": 'error="503::Too many sessions"',
    "BayeuxSessionsOverflow": 'error="413::Queue overflow"',
}
RULES = read("packaging/alerts.yml")
PANELS = json.loads(read("packaging/grafana.json"))["panels"]
EXPRESSIONS = [it["expr"] for panel in PANELS for it in panel["targets"]]


@pytest.fixture(scope="module")
def rows(program: str, tmp_path_factory: pytest.TempPathFactory) -> list[str]:
    """The names and the labels of the metrics of a daemon."""
    server = Bayeuxd(program, tmp_path_factory.mktemp("rows") / "log")
    server.wait()
    try:
        return [name + labels for name, labels in server.scrape() if name.startswith("bayeux_")]
    finally:
        server.end()


def alert_test(name: str, series: dict[str, str], *moments: tuple[int, bool]) -> dict:
    """Returns a test of promtool of the alert `name` with `series`. `moments`: pairs of a minute, and whether the alert fires then."""
    expression = f'count(ALERTS{{alertname="{name}",alertstate="firing"}})'
    samples: dict[bool, list] = {True: [{"labels": "{}", "value": 1}], False: []}
    return {
        "interval": "1m",
        "input_series": [{"series": it, "values": values} for it, values in {**OTHERS, **series}.items()],
        "promql_expr_test": [{"expr": expression, "eval_time": f"{minute}m", "exp_samples": samples[fires]} for minute, fires in moments],
    }


def values(metric: str, *steps: tuple[int | None, int]) -> str:
    """Returns the values of a metric in promtool's notation. `steps`: pairs of a value of COURSES, and its minutes."""
    found, total = [], 0
    for value, minutes in steps:
        grows = re.search("_total|_count|_bucket", metric)
        found.append(f"_x{minutes}" if value is None else f"{total}+{value}x{minutes - 1}" if grows else f"{value}x{minutes - 1}")
        total += minutes * (value or 0)
    return " ".join(found)


def of_instance(metric: str, name: str) -> str:
    """Returns `metric` with the label of the instance `name`."""
    return f'{metric.rstrip("}")}{"," if "{" in metric else "{"}instance="{name}"}}'


def timed_tests(name: str) -> Iterator[dict]:
    """Yields tests that an alert fires during trouble only, and for one of two servers, of which the other is never in trouble."""
    moments = [(BEGIN - 1, False), (BEGIN + LATE, True), (END - 1, True), (END + LATE, False)]
    for course in COURSES.get(name, []):
        first = {of_instance(it, "one"): values(it, (usual, BEGIN), (trouble, END - BEGIN), (usual, 20)) for it, (usual, trouble) in course.items()}
        yield alert_test(name, first | {of_instance(it, "two"): values(it, (usual, 70)) for it, (usual, _) in course.items()}, *moments)
    if name == "BayeuxGone":
        yield alert_test(name, {}, (5, True))
    if name == "BayeuxRestarted":
        yield alert_test(name, {UPTIME: RESTARTED}, (19, False), (20, True), (29, True), (30, False))
    if name == "BayeuxAnswersLost":
        # Answers are lost from minute 28 to minute 39, at first shortly after a restart, which explains that.
        yield alert_test(name, {LOST: "0x27 1+1x11 12x30", UPTIME: RESTARTED}, (29, False), (32, True), (45, False))


def counted_tests(name: str, rows: list[str]) -> Iterator[dict]:
    """Yields tests with each reason and each error that a server counts: the alert fires for those that it is about."""
    series = [it for it in rows if re.search('reason="|error="', it)]
    firing = [it for it in series if re.search(COUNTED[name], it)]
    assert firing
    yield alert_test(name, {it: "0+9x20" for it in series if it not in firing}, (15, False))
    yield from (alert_test(name, {it: "0+9x20"}, (15, True)) for it in firing)


def promtool(*args: object) -> None:
    """Runs promtool, which must end with status 0."""
    result = subprocess.run(["promtool", *map(str, args)], capture_output=True, text=True, check=False)
    assert result.returncode == 0, result.stdout + result.stderr


@pytest.mark.parametrize("name", re.findall(r"- alert: (\w+)", RULES))
def test_alert_fires_when_it_must_and_only_then(name: str, rows: list[str], need, tmp_path: Path) -> None:
    need("promtool")
    tests = [*timed_tests(name), *(counted_tests(name, rows) if name in COUNTED else ())]
    assert tests
    # JSON is valid YAML.
    text = json.dumps({"rule_files": [f"{TOP}/packaging/alerts.yml"], "evaluation_interval": "1m", "tests": tests})
    (tmp_path / "tests.yml").write_text(text, encoding="utf-8")
    promtool("test", "rules", tmp_path / "tests.yml")


def test_promtool_accepts_the_dashboard(need, tmp_path: Path) -> None:
    need("promtool")
    rules = [{"record": f"expression:{at}", "expr": it.replace("$__rate_interval", "1m")} for at, it in enumerate(EXPRESSIONS)]
    (tmp_path / "rules.yml").write_text(json.dumps({"groups": [{"name": "dashboard", "rules": rules}]}), encoding="utf-8")
    promtool("check", "rules", tmp_path / "rules.yml")


def test_alerts_and_dashboard_use_documented_metrics_of_a_daemon(rows: list[str]) -> None:
    def plain(names: list[str]) -> set[str]:
        return {re.sub("_(bucket|count|sum)$", "", it) for it in names}

    known = plain([it.partition("{")[0] for it in rows]) & {*re.findall(r"`(bayeux_\w+)", read("docs/MONITOR.md"))}
    assert plain(re.findall(r"\bbayeux_\w+", re.sub(r"#.*", "", RULES) + "".join(EXPRESSIONS))) - known == set()
    assert [it for it in re.findall(r"--[a-z-]+", RULES.partition("groups:")[2]) if f"- `{it} " not in read("docs/CONFIGURE.md")] == []


def test_dashboard_shows_growth_of_counters_and_values_of_others_of_the_chosen_servers() -> None:
    """The seconds since the start are a counter of which the value is shown."""
    for expression in EXPRESSIONS:
        assert not re.search(r'bayeux_\w+(?!\w|\{[^}]*instance=~"\$instance"\})', expression), expression
        for metric in re.findall(r"bayeux_\w+", expression):
            assert (f"rate({metric}{{" in expression) == (metric.endswith("_total") and metric != UPTIME), expression


@pytest.mark.parametrize("panel", PANELS, ids=lambda it: it["title"])
def test_panel_tells_its_curves_apart(panel: dict) -> None:
    assert len({it["refId"] for it in panel["targets"]}) == len({it["legendFormat"] for it in panel["targets"]}) == len(panel["targets"])
    for target in panel["targets"]:
        # A sum is divided by the labels in the name of its curve. Another curve is that of one server.
        labels = re.findall(r"{{(\w+)}}", target["legendFormat"])
        divided = re.findall(r"sum by \((\w+)\)", target["expr"])
        assert labels == divided or "sum" not in target["expr"] and labels[:1] == ["instance"], target["expr"]
